//! Timeslices and page positions of logs (traps T34, T35, T43 to T51).

mod common;

use common::{opened_with, outset, position, set::by_the_set, table};
use oracle::generate::legal_log;
use oracle::layout::INSERTION;
use oracle::log::page_times;
use oracle::outset::Side;
use oracle::random::Random;
use oracle::samples::{
    records_of,
    Request::{Delete, Insert, Update},
};
use oracle::table::timeslice;
use oracle::tree::page_position;

#[test]
fn timeslice_is_the_set() {
    for case in 0..200 {
        let mut random = Random::for_case(7, case);
        let records = legal_log(&mut random).records;
        for _ in 0..10 {
            let t = match records.is_empty() {
                true => random.next(),
                false => {
                    records[random.place(records.len())].time.wrapping_add(random.pick(&[0, 0, 1, u64::MAX]))
                }
            };
            assert_eq!(timeslice(&records, t), by_the_set(&records, t));
        }
    }
}

#[test]
fn the_time_itself_counts_and_half_an_update_is_never_seen() {
    let store = opened_with(3, 2, 4, &[Insert(10, 7, 50), Update(20, 7, 50, 44)]);
    assert_eq!(table(&store, 9).0, []);
    assert_eq!(table(&store, 10).0, [(7, 50)]);
    assert_eq!(table(&store, 19).0, [(7, 50)]);
    assert_eq!(table(&store, 20).0, [(7, 44)]);
}

/// N = 2: insertion at 10, update at 20. Its deletion is on page 0 and its insertion on page 1.
#[test]
fn an_update_split_over_two_pages_is_on_the_later_one() {
    let store = opened_with(3, 2, 4, &[Insert(10, 7, 50), Update(20, 7, 50, 44)]);
    assert_eq!(store.keys(), [10, 20]);
    assert_eq!((position(&store, 19).0, position(&store, 20).0), (0, 1));
    // three requests against none, and one against the update's two
    assert_eq!(outset(&store, 20), (Side::Later, 0));
    assert_eq!(outset(&store, 19), (Side::Earlier, 1));
}

/// d = 3, keys 10 to 200 by tens: 185 is above the separator 180 and below the next leaf's first
/// key, 190.
#[test]
fn a_time_between_two_leaves_is_on_the_page_before() {
    let keys: Vec<u64> = (1..=20).map(|i| 10 * i).collect();
    assert_eq!(page_position(&keys, 185), 17);
}

#[test]
fn article_0_with_count_0_is_a_row() {
    let mut store = opened_with(3, 2, 2, &[Insert(10, 0, 0)]);
    let (rows, answer) = table(&store, 10);
    assert_eq!((rows, answer.rows), (vec![(0, 0)], 1));
    assert_eq!(table(&store, 9).1.rows, 0);
    assert_eq!(common::net_change(&store, 9, 10), [(INSERTION, 0, 0)]);
    assert_eq!(common::refused(store.insert(20, 0, 5)), 7);
    store.keep(10, 0).unwrap();
    assert_eq!(store.view(10).unwrap().length, 8);
    store.insert(20, 1, 0).unwrap();
    assert_eq!(common::refused(store.insert(30, 2, 0)), 9);
    store.delete(30, 0).unwrap();
    assert_eq!(table(&store, 30).0, [(1, 0)]);
}

/// A file without rows is a file: before the first request, and between a deletion and the next
/// insertion.
#[test]
fn files_without_rows() {
    let mut store = opened_with(3, 2, 2, &[Insert(10, 7, 50), Delete(20, 7, 50), Insert(30, 7, 1)]);
    store.keep(25, 0).unwrap();
    store.keep(5, 0).unwrap();
    assert_eq!(store.numbers.files, 2);
    assert_eq!(store.kept()[0].rows + store.kept()[1].rows, 0);
    assert_eq!(common::refused(store.keep(25, 0)), 14);
    let view = store.view(25).unwrap();
    assert_eq!((view.place, view.rows), (oracle::outset::Place::File(1), 0));
    assert_eq!((view.start, view.length), (16, 0));
    store.drop_file(25).unwrap();
    assert!(store.audit());
}

#[test]
fn times_at_the_limit() {
    let end = u64::MAX;
    let records = records_of(&[Insert(end - 1, 1, 1), Insert(end, 2, 2)]);
    assert_eq!(timeslice(&records, end).len(), 2);
    assert_eq!(timeslice(&records, end - 1).len(), 1);
    assert_eq!(page_times(2, &records), [end - 1]);
}
