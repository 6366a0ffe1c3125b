//! The audit: yes for what accepted calls leave, no for each thing that they never leave (traps T71
//! to T78).

mod common;

use common::{by_hand, fresh, STRANGE};
use oracle::layout::Header;
use oracle::log::log_length;
use oracle::outset::Entry;
use oracle::store::Store;

/// 01's log with 20 and 45 kept, the second until Sunday.
fn with_files() -> Store {
    let mut store = by_hand();
    store.keep(20, 0).unwrap();
    store.keep(45, 7).unwrap();
    store
}

#[test]
fn yes_for_what_calls_leave() {
    assert!(fresh(2, 2, 1).audit());
    assert!(by_hand().audit());
    assert!(with_files().audit());
    let mut store = with_files();
    store.drop_file(20).unwrap();
    assert!(store.audit());
}

#[test]
fn no_for_zero_numbers() {
    let mut store = by_hand();
    assert!(store.fresh(1, 2, 4).is_err());
    assert!(!store.audit());
}

#[test]
fn anything_may_lie_past_the_ends() {
    let changes: [fn(&mut Store); 6] = [
        |store| store.memory.log[log_length(8)..].fill(1),
        |store| store.memory.index[6..].fill(1),
        |store| store.memory.table[32..].fill(1),
        |store| store.memory.catalogue[16..].fill(Entry { time: 1, rows: 1, mark: 6 }),
        // areas not in use
        |store| store.memory.areas[64..].fill(1),
        |store| store.memory.areas[64..].fill(0),
    ];
    for change in changes {
        let mut store = with_files();
        change(&mut store);
        assert!(store.audit());
    }
}

#[test]
fn no_for_what_calls_never_leave() {
    let changes: [(&str, fn(&mut Store)); 20] = [
        ("a record", |store| store.memory.log[log_length(8) - 1] ^= 1),
        ("an id", |store| store.memory.log[24 + 4] ^= 1),
        ("a key", |store| store.memory.index[0] = 9),
        ("the separator is the next key", |store| store.memory.index[2] = 40),
        ("an unused word", |store| store.memory.index[3] = 1),
        ("a row", |store| store.memory.table[4] ^= 1),
        ("a byte after the rows", |store| store.memory.table[31] = 1),
        ("one row fewer", |store| store.numbers.live = 1),
        ("one row more", |store| store.numbers.live = 3),
        ("one file fewer", |store| store.numbers.files = 1),
        ("one file more", |store| store.numbers.files = 3),
        ("an unused entry", |store| store.memory.catalogue[15].rows = 1),
        ("a mark in an unused entry", |store| store.memory.catalogue[2].mark = 5),
        ("a wrong mark", |store| store.memory.catalogue[1].mark = 6),
        ("a row count", |store| store.memory.catalogue[1].rows = 2),
        ("a file's row", |store| store.memory.areas[36] ^= 1),
        ("a byte after a file's rows", |store| store.memory.areas[63] = 1),
        ("a file after the last time", |store| {
            store.memory.catalogue[1] = Entry { time: 61, rows: 2, mark: 7 }
        }),
        ("the wrong order", |store| {
            store.memory.catalogue.swap(0, 1);
            let (first, second) = store.memory.areas.split_at_mut(32);
            first.swap_with_slice(&mut second[..32]);
        }),
        ("one time twice", |store| {
            store.memory.catalogue[1] = store.memory.catalogue[0];
            store.memory.areas.copy_within(..32, 32);
        }),
    ];
    for (name, change) in changes {
        let mut store = with_files();
        change(&mut store);
        assert!(!store.audit(), "{name}");
    }
}

#[test]
fn no_for_a_file_at_time_0() {
    let mut store = by_hand();
    store.memory.catalogue[0] = Entry::default();
    store.memory.areas[..32].fill(0);
    store.numbers.files = 1;
    assert!(!store.audit());
}

/// A file of 61 with the current table would be right if the last time were not 60.
#[test]
fn no_for_a_file_after_the_last_time() {
    let mut store = by_hand();
    store.keep(60, 0).unwrap();
    store.memory.catalogue[0].time = 61;
    assert!(!store.audit());
}

#[test]
fn no_file_without_a_request() {
    let mut store = fresh(3, 2, 4);
    store.memory.catalogue[0] = Entry { time: 1, rows: 0, mark: 0 };
    store.memory.areas[..32].fill(0);
    store.numbers.files = 1;
    assert!(!store.audit());
}

/// No panic and no for lengths that do not suffice.
#[test]
fn short_memory() {
    let mut store = by_hand();
    for length in [0, 23, 24, 47, log_length(8) - 1] {
        store.memory.log.truncate(log_length(8));
        store.memory.log.resize(length, 0);
        assert!(!store.audit());
        store = by_hand();
    }
    store.memory.index.truncate(5);
    assert!(!store.audit());
}

/// A deletion that is the front half of an update is what a plain deletion leaves.
#[test]
fn a_front_part_is_opened_and_audited() {
    let mut log = oracle::samples::log_by_hand();
    log[..24].copy_from_slice(&Header::new(3, 2, 4, 3, 30).bytes());
    let store = common::opened(&log);
    assert!(store.audit());
    assert_eq!(store.numbers.live, 1);
    assert_eq!(store.memory.index[..3], [10, 30, u64::from_le_bytes([STRANGE; 8])]);
}
