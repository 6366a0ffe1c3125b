//! The choice of an outset and the view (02, wish 6; traps T56 to T63). Beside a case stand the requests between the
//! wanted time and the earlier outset, then those between it and the later one.

mod common;

use common::{by_hand, fresh, opened_with, outset, position, side_by_pages, table};
use oracle::outset::{
    choose, earlier_candidate, held, later_candidate, requests_between, Entry, Held, Place, Side,
};
use oracle::position::{self, Position};
use oracle::samples::{records_of, Request::Insert, SPLIT_AT_20, SPLIT_AT_40};
use oracle::store::{Store, View};

/// A view of so many rows, with R = 4: a count file's area takes 32 bytes.
fn view(place: Place, rows: u32, side: Side, requests_between: u32) -> View {
    let start = if let Place::File(i) = place { 32 * i } else { 0 };
    View { place, rows, start, length: 8 * rows as usize, side, requests_between }
}

/// The outset of t as table and view both answer it.
fn used(store: &Store, t: u64) -> (Place, Side, u32) {
    let view = store.view(t).unwrap();
    assert_eq!(outset(store, t), (view.side, view.requests_between));
    (view.place, view.side, view.requests_between)
}

/// A position in a log of five pages, N = 2: requests at 10, 15, 20 … 55, keys at 10, 20, 30, 40, 50.
fn by_fives(t: u64) -> Position {
    let requests: Vec<_> = (2..=11).map(|k| Insert(5 * k, k as u32, 0)).collect();
    position::position(2, &records_of(&requests), t)
}

/// Two pages of eight insertions, at 10 to 80 and 90 to 160, with these times kept. So many requests are
/// at or before a time as it has tens.
fn by_tens(kept: &[u64]) -> Store {
    let requests: Vec<_> = (1..=16).map(|k| Insert(10 * k, k as u32, 0)).collect();
    with_kept(opened_with(3, 8, 16, &requests), kept)
}

fn with_kept(mut store: Store, times: &[u64]) -> Store {
    times.iter().for_each(|&t| store.keep(t, 0).unwrap());
    store
}

#[test]
fn without_files() {
    let store = by_hand();
    // requests 0, 1, 2, 4, 5, 6, 8 of 9, 10, 20, 30, 40, 59, 60; the current table at 8
    assert_eq!(outset(&store, 0), (Side::Earlier, 0));
    assert_eq!(outset(&store, 9), (Side::Earlier, 0));
    assert_eq!(outset(&store, 10), (Side::Earlier, 1));
    assert_eq!(outset(&store, 20), (Side::Earlier, 2));
    assert_eq!(outset(&store, 30), (Side::Earlier, 4));
    assert_eq!(outset(&store, 40), (Side::Later, 3));
    assert_eq!(outset(&store, 59), (Side::Later, 2));
    assert_eq!(outset(&store, 60), (Side::Later, 0));
    assert_eq!(store.view(0).unwrap(), view(Place::Empty, 0, Side::Earlier, 0));
    assert_eq!(store.view(30).unwrap(), view(Place::Empty, 0, Side::Earlier, 4));
    assert_eq!(store.view(40).unwrap(), view(Place::Current, 2, Side::Later, 3));
    assert_eq!(store.view(60).unwrap(), view(Place::Current, 2, Side::Later, 0));
}

/// The last time has the current table itself, also where all requests are on one page.
#[test]
fn one_page() {
    let mut store = fresh(3, 64, 4);
    store.insert(10, 7, 50).unwrap();
    assert_eq!(outset(&store, 10), (Side::Later, 0));
    assert_eq!(store.view(10).unwrap(), view(Place::Current, 1, Side::Later, 0));
    assert_eq!(store.view(9).unwrap(), view(Place::Empty, 0, Side::Earlier, 0));
    // 1 and 1, then 2 and 0
    store.insert(20, 3, 12).unwrap();
    assert_eq!(store.view(10).unwrap(), view(Place::Empty, 0, Side::Earlier, 1));
    assert_eq!(store.view(20).unwrap(), view(Place::Current, 2, Side::Later, 0));
}

#[test]
fn no_record() {
    let store = fresh(3, 2, 4);
    let (rows, answer) = table(&store, 0);
    assert_eq!((rows.len(), answer.rows, answer.side, answer.requests_between), (0, 0, Side::Earlier, 0));
    assert_eq!(store.view(0).unwrap(), view(Place::Empty, 0, Side::Earlier, 0));
}

#[test]
fn a_kept_time_starts_from_its_file_on_the_earlier_side() {
    let store = with_kept(by_hand(), &[20, 45]);
    assert_eq!(store.view(45).unwrap(), view(Place::File(1), 1, Side::Earlier, 0));
    assert_eq!(store.view(20).unwrap(), view(Place::File(0), 2, Side::Earlier, 0));
}

/// No request lies between 0 and 5, 10 and 15, or 52 and 55; the held time nearest to the wanted one is
/// the candidate.
#[test]
fn candidates_are_nearest_in_time() {
    let store = with_kept(by_hand(), &[5]);
    assert_eq!(store.view(9).unwrap(), view(Place::File(0), 0, Side::Earlier, 0));
    assert_eq!(store.view(10).unwrap(), view(Place::File(0), 0, Side::Earlier, 1));
    let store = with_kept(by_hand(), &[10, 15]);
    assert_eq!(store.view(20).unwrap(), view(Place::File(1), 1, Side::Earlier, 1));
    let store = with_kept(by_hand(), &[52, 55]);
    assert_eq!(store.view(51).unwrap(), view(Place::File(0), 2, Side::Later, 0));
}

#[test]
fn a_file_at_the_last_time_goes_before_the_current_table() {
    let mut store = with_kept(by_hand(), &[60]);
    assert_eq!(store.view(59).unwrap(), view(Place::File(0), 2, Side::Later, 2));
    assert_eq!(store.view(60).unwrap(), view(Place::File(0), 2, Side::Earlier, 0));
    store.insert(70, 1, 1).unwrap();
    assert_eq!(store.view(70).unwrap(), view(Place::Current, 3, Side::Later, 0));
}

/// A file between t and the last time is the later candidate, and the current table is not.
#[test]
fn ties() {
    let file = |time| Entry { time, rows: 0, mark: 0 };
    let chosen = |files: &[Entry], t| {
        let outset = choose(by_fives, files, 55, t);
        (outset.held.place, outset.side, outset.requests_between)
    };
    // 5 and 5 up to 34, then 6 and 4, 7 and 3
    assert_eq!(chosen(&[], 30), (Place::Empty, Side::Earlier, 5));
    assert_eq!(chosen(&[], 34), (Place::Empty, Side::Earlier, 5));
    assert_eq!(chosen(&[], 35), (Place::Current, Side::Later, 4));
    assert_eq!(chosen(&[], 40), (Place::Current, Side::Later, 3));
    // 2 and 2; 3 and 2; 2 and 1; 6 and 1
    assert_eq!(chosen(&[file(20), file(40)], 30), (Place::File(0), Side::Earlier, 2));
    assert_eq!(chosen(&[file(19), file(40)], 30), (Place::File(1), Side::Later, 2));
    assert_eq!(chosen(&[file(20), file(39)], 30), (Place::File(1), Side::Later, 1));
    assert_eq!(chosen(&[file(15), file(52)], 45), (Place::File(1), Side::Later, 1));
    assert_eq!(chosen(&[file(55)], 55), (Place::File(0), Side::Earlier, 0));
}

#[test]
fn candidates() {
    let files = [Entry { time: 20, rows: 1, mark: 0 }, Entry { time: 40, rows: 1, mark: 0 }];
    assert_eq!(held(&files, 40).len(), 4);
    assert_eq!(earlier_candidate(&files, 40, 39), Held { time: 20, place: Place::File(0) });
    assert_eq!(earlier_candidate(&files, 40, 19), Held { time: 0, place: Place::Empty });
    assert_eq!(later_candidate(&files, 40, 21), Held { time: 40, place: Place::File(1) });
    assert_eq!(later_candidate(&files[..1], 40, 21), Held { time: 40, place: Place::Current });
}

#[test]
fn requests_between_both_ways_round() {
    let between = |outset_time, t| requests_between(by_fives(outset_time), by_fives(t));
    assert_eq!((between(20, 40), between(40, 20)), (4, 4));
    assert_eq!((between(0, 9), between(0, 10), between(10, 14)), (0, 1, 0));
}

/// One page either way.
#[test]
fn pages_tie_and_requests_do_not() {
    // 3 and 1: 10, 30 and 40 are on pages 0, 1 and 2
    let store = with_kept(by_hand(), &[10, 40]);
    assert_eq!([10, 30, 40].map(|t| position(&store, t).0), [0, 1, 2]);
    assert_eq!(used(&store, 30), (Place::File(1), Side::Later, 1));
    // 1 and 3: 25, 30 and 45 are on pages 1, 2 and 3
    assert_eq!([25, 30, 45].map(|t| by_fives(t).page), [1, 2, 3]);
    let files = [Entry { time: 25, rows: 4, mark: 0 }, Entry { time: 45, rows: 8, mark: 0 }];
    let outset = choose(by_fives, &files, 55, 30);
    assert_eq!((outset.held.place, outset.side, outset.requests_between), (Place::File(0), Side::Earlier, 1));
}

#[test]
fn pages_prefer_one_side_and_requests_the_other() {
    // 1 and 5; a page and none
    let store = by_tens(&[80, 140]);
    assert_eq!(used(&store, 90), (Place::File(0), Side::Earlier, 1));
    assert_eq!(side_by_pages(&store, 90), Side::Later);
    // 6 and 1; no page and one
    let store = by_tens(&[20, 90]);
    assert_eq!(used(&store, 80), (Place::File(1), Side::Later, 1));
    assert_eq!(side_by_pages(&store, 80), Side::Earlier);
}

/// The pages break no tie.
#[test]
fn pages_differ_and_requests_tie() {
    // 3 and 3; a page and none
    let store = by_tens(&[70, 130]);
    assert_eq!(used(&store, 100), (Place::File(0), Side::Earlier, 3));
    assert_eq!(side_by_pages(&store, 100), Side::Later);
    // 2 and 2; no page and one
    let store = by_tens(&[60, 100]);
    assert_eq!(used(&store, 80), (Place::File(0), Side::Earlier, 2));
    assert_eq!(side_by_pages(&store, 80), Side::Earlier);
}

/// "Choosing by nearness in time" (01, "Slips this tree invites").
#[test]
fn times_prefer_one_side_and_requests_the_other() {
    // none and 1; 9 units of time and one
    let store = with_kept(by_hand(), &[30, 40]);
    assert_eq!(store.view(39).unwrap(), view(Place::File(0), 2, Side::Earlier, 0));
    // 3 and 1; 3 units and 87
    let crowded = [Insert(10, 1, 1), Insert(11, 2, 1), Insert(12, 3, 1), Insert(13, 4, 1), Insert(100, 5, 1)];
    let store = with_kept(opened_with(3, 2, 5, &crowded), &[10]);
    assert_eq!(used(&store, 13), (Place::Current, Side::Later, 1));
    // 1 and 1; 5 units and 85, then 89 and one
    let store = with_kept(store, &[12]);
    assert_eq!(used(&store, 17), (Place::File(1), Side::Earlier, 1));
    assert_eq!(used(&store, 99), (Place::File(1), Side::Earlier, 1));
}

#[test]
fn between_two_request_times() {
    // none and 1
    assert_eq!(used(&by_tens(&[80, 90]), 85), (Place::File(0), Side::Earlier, 0));
    // 8 and none
    assert_eq!(used(&by_tens(&[88]), 85), (Place::File(0), Side::Later, 0));
    // 3 and 2, then 3 and 3
    assert_eq!(used(&by_tens(&[55, 105]), 85), (Place::File(1), Side::Later, 2));
    assert_eq!(used(&by_tens(&[55, 115]), 85), (Place::File(0), Side::Earlier, 3));
}

/// The update's two records at 30 lie between 30 and an earlier outset, not between 30 and a later one.
#[test]
fn records_at_the_time_itself() {
    // 3 and 1; were they on both sides, 3 and 3
    let store = with_kept(by_hand(), &[10, 40]);
    assert_eq!(store.view(30).unwrap(), view(Place::File(1), 1, Side::Later, 1));
    // 2 and 1; were they on neither side, 0 and 1
    let store = with_kept(by_hand(), &[20, 40]);
    assert_eq!(store.view(30).unwrap(), view(Place::File(1), 1, Side::Later, 1));
    // 2 and 2; the same up to the next request, and 0 and 4 just before 30
    let store = with_kept(by_hand(), &[25, 50]);
    assert_eq!(store.view(30).unwrap(), view(Place::File(0), 2, Side::Earlier, 2));
    assert_eq!(store.view(39).unwrap(), view(Place::File(0), 2, Side::Earlier, 2));
    assert_eq!(store.view(29).unwrap(), view(Place::File(0), 2, Side::Earlier, 0));
    // 2 and 0
    let store = with_kept(by_hand(), &[50]);
    assert_eq!(store.view(60).unwrap(), view(Place::Current, 2, Side::Later, 0));
}

/// Both halves of an update count, on whichever page each is. By one of them the side would be another.
#[test]
fn an_update_split_over_two_pages() {
    let store = opened_with(3, 2, 4, &SPLIT_AT_20);
    assert_eq!(store.keys(), [10, 20, 40]);
    // 3 and 2; by one half 2 and 2, or 2 and 3 where the other half is taken for later
    assert_eq!(store.view(20).unwrap(), view(Place::Current, 3, Side::Later, 2));
    assert_eq!(table(&store, 20).0, [(7, 44)]);
    assert_eq!(side_by_pages(&store, 20), Side::Earlier);
    // 1 and 4
    assert_eq!(store.view(19).unwrap(), view(Place::Empty, 0, Side::Earlier, 1));

    let store = opened_with(3, 2, 4, &SPLIT_AT_40);
    assert_eq!(store.keys(), [10, 30, 40]);
    // 3 and 3; by one half 3 and 2
    assert_eq!(store.view(30).unwrap(), view(Place::Empty, 0, Side::Earlier, 3));
    // 2 and 2; by one half 2 and 1
    let store = with_kept(store, &[10, 40]);
    assert_eq!(store.view(30).unwrap(), view(Place::File(0), 1, Side::Earlier, 2));
    assert_eq!(table(&store, 30).0, [(3, 12), (7, 50), (9, 5)]);
    // the first file and the current table: 4 and 1
    let store = with_kept(opened_with(3, 2, 4, &SPLIT_AT_40), &[10]);
    assert_eq!(store.view(40).unwrap(), view(Place::Current, 4, Side::Later, 1));
}
