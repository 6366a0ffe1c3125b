//! Positions (02, wish 5): page and requests at the times where one of them changes, and how the two
//! go together.

mod common;

use common::{fresh, opened_with, position};
use oracle::generate::{legal_log, Log};
use oracle::limits::ROW_LIMITS;
use oracle::listing::LENT_INDEX;
use oracle::random::Random;
use oracle::samples::Request::{Delete, Insert, Update};
use oracle::store::{Memory, Store};
use oracle::table::table_length;
use std::collections::BTreeSet;

/// The first request is a single record: an update needs its article present.
#[test]
fn before_and_at_the_first_request() {
    let store = opened_with(3, 2, 4, &[Insert(10, 7, 50), Insert(20, 3, 12)]);
    assert_eq!((position(&store, 0), position(&store, 9)), ((0, 0), (0, 0)));
    assert_eq!((position(&store, 10), position(&store, 19)), ((0, 1), (0, 1)));
}

#[test]
fn no_request() {
    assert_eq!(position(&fresh(3, 2, 4), 0), (0, 0));
    assert_eq!(position(&opened_with(3, 2, 4, &[]), 0), (0, 0));
}

/// N = 2: the deletion is the last record of page 0, the insertion the first of page 1.
#[test]
fn an_update_split_over_two_pages() {
    let store = opened_with(3, 2, 4, &[Insert(10, 7, 50), Update(20, 7, 50, 44)]);
    assert_eq!(store.keys(), [10, 20]);
    assert_eq!((position(&store, 19), position(&store, 20)), ((0, 1), (1, 3)));
}

#[test]
fn an_update_within_a_page_counts_two() {
    let store = opened_with(3, 4, 4, &[Insert(10, 7, 50), Update(20, 7, 50, 44), Delete(30, 7, 44)]);
    assert_eq!(store.keys(), [10]);
    assert_eq!((position(&store, 19), position(&store, 20)), ((0, 1), (0, 3)));
    assert_eq!((position(&store, 29), position(&store, 30)), ((0, 3), (0, 4)));
}

/// N = 3: the third request ends page 0, and the fourth one begins page 1.
#[test]
fn a_page_full_to_its_end() {
    let mut store = opened_with(3, 3, 4, &[Insert(10, 7, 50), Insert(20, 3, 12), Delete(30, 3, 12)]);
    assert_eq!((position(&store, 29), position(&store, 30)), ((0, 2), (0, 3)));
    store.insert(40, 9, 5).unwrap();
    assert_eq!((position(&store, 39), position(&store, 40)), ((0, 3), (1, 4)));
}

/// A request that is still to come changes no position before it.
#[test]
fn the_last_time_has_all_requests() {
    let mut store = fresh(3, 2, 4);
    store.insert(10, 7, 50).unwrap();
    assert_eq!(position(&store, 10), (0, 1));
    store.update(20, 7, 44).unwrap();
    assert_eq!((position(&store, 10), position(&store, 20)), ((0, 1), (1, 3)));
    store.delete(30, 7).unwrap();
    assert_eq!((position(&store, 20), position(&store, 30)), ((1, 3), (1, 4)));
}

#[test]
fn the_last_time_there_is() {
    let end = u64::MAX;
    let store = opened_with(3, 2, 4, &[Insert(end, 7, 50)]);
    assert_eq!((position(&store, end - 1), position(&store, end)), ((0, 0), (0, 1)));
    let store = opened_with(3, 2, 4, &[Insert(end - 1, 7, 50), Update(end, 7, 50, 44)]);
    assert_eq!((position(&store, end - 1), position(&store, end)), ((0, 1), (1, 3)));
}

fn opened(log: &Log) -> Store {
    let table = vec![0; table_length(*ROW_LIMITS.end())];
    let index = vec![0; LENT_INDEX];
    let mut store = Store::over(Memory { log: log.bytes(), index, table, catalogue: vec![], areas: vec![] });
    store.open().unwrap();
    store
}

/// The times of the records, those next to them as far as they are answered, and 0.
fn times_around(log: &Log) -> BTreeSet<u64> {
    let around = |time: u64| [time - 1, time, time.saturating_add(1).min(log.header.last)];
    log.records.iter().flat_map(|record| around(record.time)).chain([0]).collect()
}

/// No counting here: a time parts the records, and the last one before the parting is on the page.
#[test]
fn a_position_parts_the_records() {
    let (mut before_first, mut mid_page, mut full_page, mut split, mut latest) = (0, 0, 0, 0, 0);
    for case in 0..400 {
        let log = legal_log(&mut Random::for_case(15, case));
        let (size, store) = (log.header.page_size as usize, opened(&log));
        for t in times_around(&log) {
            let (page, requests) = position(&store, t);
            let (page, requests) = (page as usize, requests as usize);
            let (until, later) = log.records.split_at(requests);
            assert!(until.iter().all(|record| record.time <= t), "case {case}, time {t}");
            assert!(later.iter().all(|record| record.time > t), "case {case}, time {t}");
            if log.records.first().is_none_or(|first| t < first.time) {
                assert_eq!((page, requests), (0, 0), "case {case}, time {t}");
                before_first += 1;
                continue;
            }
            assert!(page * size < requests && requests <= page * size + size, "case {case}, time {t}");
            full_page += (requests == page * size + size) as u32;
            mid_page += (requests < page * size + size && !later.is_empty()) as u32;
            // the page begins with the second record of an update
            split += (page > 0 && log.records[page * size - 1].time == log.records[page * size].time) as u32;
            latest += (t == u64::MAX) as u32;
        }
    }
    let met = [before_first, mid_page, full_page, split, latest];
    assert!(met.iter().all(|often| *often >= 20), "{met:?}");
}
