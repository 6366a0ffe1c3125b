//! Keeping more is never worse (02, wish 9), by hand on 01's log: "a store holding a larger set of count files reports no more
//! requests between outset and time than one holding a part of that set". Beside a case stand the requests between the
//! wanted time and the earlier outset, then those between it and the later one.

mod common;

use common::parts::{of_set, sets_and_parts};
use common::{by_hand, outset};
use oracle::outset::{Place, Side};

/// Requests between, side and place of the outset of t with these times kept, as table and view both answer it.
fn used(kept: &[u64], t: u64) -> (u32, Side, Place) {
    let mut store = by_hand();
    kept.iter().for_each(|&t| store.keep(t, 0).unwrap());
    let view = store.view(t).unwrap();
    assert_eq!(outset(&store, t), (view.side, view.requests_between));
    (view.requests_between, view.side, view.place)
}

#[test]
fn a_nearer_file() {
    // 4 and 4; 3 and 4; 3 and 1; none and 1
    assert_eq!(used(&[], 30), (4, Side::Earlier, Place::Empty));
    assert_eq!(used(&[10], 30), (3, Side::Earlier, Place::File(0)));
    assert_eq!(used(&[10, 40], 30), (1, Side::Later, Place::File(1)));
    assert_eq!(used(&[10, 30, 40], 30), (0, Side::Earlier, Place::File(1)));
}

/// The number stays, whether the outset does or not.
#[test]
fn a_file_that_is_not_nearer() {
    // 3 and 1; with 20, which is nearer than 10, 2 and 1; with 50, behind 40, the same
    assert_eq!(used(&[10, 40], 30), (1, Side::Later, Place::File(1)));
    assert_eq!(used(&[10, 20, 40], 30), (1, Side::Later, Place::File(2)));
    assert_eq!(used(&[10, 20, 40, 50], 30), (1, Side::Later, Place::File(2)));
    // 4 and 3; with 20 a tie of 3, and the other side; with 60 a file in place of the current table
    assert_eq!(used(&[10], 45), (3, Side::Later, Place::Current));
    assert_eq!(used(&[10, 20], 45), (3, Side::Earlier, Place::File(1)));
    assert_eq!(used(&[10, 60], 45), (3, Side::Later, Place::File(1)));
    // 1 and 6; with 30, one unit of time away where 10 is nineteen, 1 and 2
    assert_eq!(used(&[10], 29), (1, Side::Earlier, Place::File(0)));
    assert_eq!(used(&[10, 30], 29), (1, Side::Earlier, Place::File(0)));
}

/// None from the current table, and none from a file of the last time.
#[test]
fn after_the_last_request() {
    for t in [61, u64::MAX] {
        assert_eq!(used(&[], t), (0, Side::Later, Place::Current));
        assert_eq!(used(&[50], t), (0, Side::Later, Place::Current));
        assert_eq!(used(&[50, 60], t), (0, Side::Earlier, Place::File(1)));
    }
}

/// Files added one by one: 40 and 10 bring some times nearer, 60 none, 20 and 30 some again.
#[test]
fn one_file_after_another() {
    let asked = [0, 9, 10, 15, 20, 29, 30, 39, 40, 45, 50, 59, 60, 61, u64::MAX];
    let figures: [(&[u64], [u32; 15]); 6] = [
        (&[], [0, 0, 1, 1, 2, 2, 4, 4, 3, 3, 2, 2, 0, 0, 0]),
        (&[40], [0, 0, 1, 1, 2, 2, 1, 1, 0, 0, 1, 1, 0, 0, 0]),
        (&[40, 10], [0, 0, 0, 0, 1, 1, 1, 1, 0, 0, 1, 1, 0, 0, 0]),
        (&[40, 10, 60], [0, 0, 0, 0, 1, 1, 1, 1, 0, 0, 1, 1, 0, 0, 0]),
        (&[40, 10, 60, 20], [0, 0, 0, 0, 0, 0, 1, 1, 0, 0, 1, 1, 0, 0, 0]),
        (&[40, 10, 60, 20, 30], [0, 0, 0, 0, 0, 0, 0, 0, 0, 0, 1, 1, 0, 0, 0]),
    ];
    for (kept, between) in figures {
        assert_eq!(asked.map(|t| used(kept, t).0), between, "{kept:?}");
    }
}

/// Every set of seven times and every part of it, for every time up to 62 and the last there is.
#[test]
fn every_set_of_seven_files() {
    let files = [10, 20, 30, 35, 40, 50, 60];
    let asked: Vec<u64> = (0..=62).chain([u64::MAX]).collect();
    let reported: Vec<Vec<u32>> =
        (0..1 << 7).map(|set| asked.iter().map(|&t| used(&of_set(&files, set), t).0).collect()).collect();
    let mut fewer = 0;
    for (set, part) in sets_and_parts(7) {
        for (i, t) in asked.iter().enumerate() {
            assert!(reported[set][i] <= reported[part][i], "{set:b}, {part:b}, time {t}");
            fewer += (reported[set][i] < reported[part][i]) as u32;
        }
    }
    assert!(fewer > 10_000, "{fewer}");
}
