//! The questions in their order: for each pair of neighbours a call with both answered no (traps T1
//! to T18).

mod common;

use common::{by_hand, fresh, opened, opened_with, position, refused, strange, AMPLE, STRANGE};
use oracle::layout::{Header, Record, INSERTION};
use oracle::limits::MOST_RECORDS;
use oracle::log::{log_bytes, log_length};
use oracle::samples::{log_by_hand, Request::Insert};
use oracle::store::{Lengths, Memory, Numbers, Store};
use oracle::tree::word_count;

/// A store of 01's log over exactly these lengths of log and index.
fn by_hand_within(log: usize, index: usize) -> Store {
    let mut memory = Memory::filled(Lengths { log, index, ..AMPLE }, STRANGE);
    memory.log[..log_length(8)].copy_from_slice(&log_by_hand());
    let mut store = Store::over(memory);
    store.open().unwrap();
    store
}

/// The call is refused by this number and leaves numbers and memory as they were.
fn refuses(store: &mut Store, number: u8, call: fn(&mut Store) -> Result<(), oracle::store::Refusal>) {
    let before = store.clone();
    assert_eq!(refused(call(store)), number);
    assert_eq!(*store, before);
}

#[test]
fn fresh_store() {
    let try_fresh = |lengths, order, page_size, row_limit| {
        let before = Memory::filled(lengths, STRANGE);
        let mut store =
            Store { numbers: Numbers { order: 9, live: 3, ..Numbers::default() }, memory: before.clone() };
        let number = refused(store.fresh(order, page_size, row_limit));
        assert_eq!(store, Store::over(before));
        number
    };
    let none = Lengths { log: 23, index: 0, table: 7, catalogue: 0, areas: 0 };
    assert_eq!(try_fresh(none, 1, 1, 0), 2);
    assert_eq!(try_fresh(none, 65, 2, 1), 2);
    assert_eq!(try_fresh(none, 2, 1, 0), 3);
    assert_eq!(try_fresh(none, 2, 65, 1), 3);
    assert_eq!(try_fresh(none, 64, 64, 0), 4);
    assert_eq!(try_fresh(none, 2, 2, 1025), 4);
    assert_eq!(try_fresh(none, 2, 2, 1), 5);
    assert_eq!(try_fresh(Lengths { log: 24, ..none }, 2, 2, 1), 5);
    assert_eq!(try_fresh(Lengths { table: 8, ..none }, 2, 2, 1), 5);
    // the least lengths; no index, catalogue or area is asked for
    let mut store = Store::over(Memory::filled(Lengths { log: 24, table: 8, ..none }, STRANGE));
    store.fresh(2, 2, 1).unwrap();
    assert!(store.audit());
    refuses(&mut store, 10, |store| store.insert(1, 0, 0));
}

#[test]
fn question_1_numbers() {
    let wrong: [fn(&mut Numbers); 13] = [
        |numbers| numbers.order = 1,
        |numbers| numbers.order = 65,
        |numbers| numbers.page_size = 1,
        |numbers| numbers.page_size = 65,
        |numbers| numbers.row_limit = 0,
        |numbers| numbers.row_limit = 1025,
        |numbers| numbers.records = MOST_RECORDS + 1,
        |numbers| numbers.records = u32::MAX,
        |numbers| numbers.order = 4,
        |numbers| numbers.records = 7,
        |numbers| numbers.last = 59,
        |numbers| numbers.live = 5,
        |numbers| numbers.files = 17,
    ];
    for change in wrong {
        let mut store = by_hand();
        change(&mut store.numbers);
        // 1 goes before every other number
        refuses(&mut store, 1, |store| store.insert(0, 7, 0));
        refuses(&mut store, 1, |store| store.delete(0, 1));
        refuses(&mut store, 1, |store| store.update(0, 1, 0));
        refuses(&mut store, 1, |store| store.position(61).map(|_| ()));
        refuses(&mut store, 1, |store| store.table(61, &mut []).map(|_| ()));
        refuses(&mut store, 1, |store| store.view(61).map(|_| ()));
        refuses(&mut store, 1, |store| store.net_change(61, 61, &mut [], &mut []).map(|_| ()));
        refuses(&mut store, 1, |store| store.units(61).map(|_| ()));
        refuses(&mut store, 1, |store| store.units_between(61, 61).map(|_| ()));
        refuses(&mut store, 1, |store| store.keep(61, 0));
        refuses(&mut store, 1, |store| store.keep(61, 6));
        refuses(&mut store, 1, |store| store.drop_file(61));
        refuses(&mut store, 1, |store| store.drop_marked(6).map(|_| ()));
        refuses(&mut store, 1, |store| store.drop_marked(5).map(|_| ()));
        assert!(!store.audit());
    }
}

#[test]
fn question_1_header_is_all_24_bytes() {
    for at in 0..24 {
        let mut store = by_hand();
        store.memory.log[at] ^= 1;
        refuses(&mut store, 1, |store| store.position(60).map(|_| ()));
    }
}

#[test]
fn question_1_lengths() {
    let least = Lengths { log: log_length(8), index: 6, table: 32, catalogue: 2, areas: 64 };
    let shorter: [fn(&mut Memory); 5] = [
        |memory| memory.log.truncate(memory.log.len() - 1),
        |memory| memory.index.truncate(memory.index.len() - 1),
        |memory| memory.table.truncate(memory.table.len() - 1),
        |memory| memory.catalogue.truncate(memory.catalogue.len() - 1),
        |memory| memory.areas.truncate(memory.areas.len() - 1),
    ];
    let mut memory = Memory::filled(least, STRANGE);
    memory.log = log_by_hand();
    let mut store = Store::over(memory);
    store.open().unwrap();
    store.keep(20, 0).unwrap();
    store.keep(40, 0).unwrap();
    assert_eq!(position(&store, 60), (3, 8));
    assert!(store.audit());
    for shorten in shorter {
        let mut store = store.clone();
        shorten(&mut store.memory);
        refuses(&mut store, 1, |store| store.position(60).map(|_| ()));
        refuses(&mut store, 1, |store| store.units(60).map(|_| ()));
        refuses(&mut store, 1, |store| store.units_between(20, 60).map(|_| ()));
    }
    let mut store = store.clone();
    store.memory.log.truncate(10);
    refuses(&mut store, 1, |store| store.position(60).map(|_| ()));
}

/// There is no header for n = 0 with a last time other than 0.
#[test]
fn question_1_no_record_but_a_last_time() {
    let mut store = fresh(3, 2, 4);
    store.numbers.last = 5;
    store.memory.log[..24].copy_from_slice(&Header::new(3, 2, 4, 0, 5).bytes());
    refuses(&mut store, 1, |store| store.position(0).map(|_| ()));
    assert!(!store.audit());
}

/// Question 1 does not look at records, table, index words or the catalogue.
#[test]
fn question_1_asks_nothing_else() {
    let mut store = by_hand();
    store.keep(20, 0).unwrap();
    store.memory.log[24..].fill(STRANGE);
    store.memory.index.fill(7);
    store.memory.table.fill(STRANGE);
    store.memory.catalogue.reverse();
    store.memory.areas.fill(STRANGE);
    assert!(store.position(60).is_ok());
    assert!(!store.audit());
}

#[test]
fn insert() {
    // R = 2, both rows live, log and index full
    let mut store = opened_with(3, 2, 2, &[Insert(10, 7, 50), Insert(20, 3, 12)]);
    store.memory.log.truncate(log_length(2));
    store.memory.index.truncate(2);
    refuses(&mut store, 6, |store| store.insert(20, 7, 1));
    refuses(&mut store, 6, |store| store.insert(0, 7, 1));
    refuses(&mut store, 7, |store| store.insert(21, 7, 1));
    refuses(&mut store, 9, |store| store.insert(21, 8, 1));
    // with a row free: four pages, two leaves and their root; the fifth page opens a leaf
    let mut store = by_hand_within(log_length(8), 6);
    refuses(&mut store, 10, |store| store.insert(61, 1, 1));
    let mut store = by_hand_within(log_length(9), 6);
    refuses(&mut store, 11, |store| store.insert(61, 1, 1));
    let mut store = by_hand_within(log_length(9), 7);
    refuses(&mut store, 11, |store| store.insert(61, 1, 1));
    let mut store = by_hand_within(log_length(9), 8);
    store.insert(61, 1, 1).unwrap();
    assert!(store.audit());
}

#[test]
fn delete() {
    let mut store = by_hand_within(log_length(8), 6);
    refuses(&mut store, 6, |store| store.delete(60, 3));
    refuses(&mut store, 8, |store| store.delete(61, 3));
    refuses(&mut store, 10, |store| store.delete(61, 7));
    let mut store = by_hand_within(log_length(9), 7);
    refuses(&mut store, 11, |store| store.delete(61, 7));
    let mut store = by_hand_within(log_length(9), 8);
    store.delete(61, 7).unwrap();
    assert!(store.audit());
}

#[test]
fn update() {
    let mut store = by_hand_within(log_length(9), 6);
    refuses(&mut store, 6, |store| store.update(60, 3, 1));
    refuses(&mut store, 8, |store| store.update(61, 3, 1));
    refuses(&mut store, 10, |store| store.update(61, 7, 1));
    let mut store = by_hand_within(log_length(10), 7);
    refuses(&mut store, 11, |store| store.update(61, 7, 1));
    let mut store = by_hand_within(log_length(10), 8);
    store.update(61, 7, 1).unwrap();
    assert!(store.audit());
}

/// The nodes needed are those after both records of an update: the second one opens a leaf.
#[test]
fn update_needs_the_nodes_of_its_second_record() {
    let mut store = opened_with(2, 2, 4, &[Insert(10, 7, 50)]);
    store.memory.index.truncate(word_count(2, 2, 2));
    refuses(&mut store, 11, |store| store.update(20, 7, 1));
    store.insert(20, 8, 1).unwrap();
}

#[test]
fn update_does_not_ask_for_a_free_row() {
    let mut store = opened_with(3, 2, 1, &[Insert(10, 7, 50)]);
    store.update(20, 7, 51).unwrap();
    refuses(&mut store, 9, |store| store.insert(30, 8, 1));
}

/// An update to the same count is two records and gives no net change.
#[test]
fn update_to_the_same_count() {
    let mut store = by_hand();
    store.update(61, 7, 44).unwrap();
    assert_eq!(store.numbers.records, 10);
    assert!(store.audit());
    assert_eq!(common::net_change(&store, 60, 61), []);
}

#[test]
fn the_first_request_needs_a_time_of_1() {
    let mut store = fresh(3, 2, 4);
    refuses(&mut store, 6, |store| store.insert(0, 1, 1));
    store.insert(1, 1, 1).unwrap();
}

#[test]
fn no_request_after_the_last_time_there_is() {
    let mut store = opened_with(3, 2, 4, &[Insert(u64::MAX, 7, 50)]);
    refuses(&mut store, 6, |store| store.insert(u64::MAX, 8, 1));
    refuses(&mut store, 6, |store| store.delete(0, 7));
    refuses(&mut store, 6, |store| store.update(u64::MAX, 7, 1));
    assert_eq!(position(&store, u64::MAX), (0, 1));
}

/// 65,535 records, then one more: an update has no space, a single record has; then neither.
#[test]
fn limit_of_records() {
    let many = MOST_RECORDS - 1;
    let records: Vec<Record> =
        (0..many).map(|k| Record::new(INSERTION + (k % 2) as u16, k, k as u64 + 1, 7, 5)).collect();
    let header = Header::new(2, 2, 1, many, many as u64);
    let mut memory = strange();
    memory.log = log_bytes(&header, &records);
    memory.log.resize(log_length(MOST_RECORDS + 4), STRANGE);
    memory.index = vec![1; 70_000];
    let mut store = Store::over(memory);
    store.open().unwrap();
    refuses(&mut store, 10, |store| store.update(70_000, 7, 1));
    store.delete(70_000, 7).unwrap();
    assert_eq!(store.numbers.records, MOST_RECORDS);
    assert_eq!(store.memory.index[65_534..65_536], [65_535, 1]);
    refuses(&mut store, 10, |store| store.insert(70_001, 7, 1));
    assert_eq!(position(&store, 69_999), (32_767, 65_535));
    assert_eq!(position(&store, 70_000), (32_767, 65_536));
    assert!(store.audit());
}

/// A time after the last request, here 61, is no question of theirs (02, wish 2).
#[test]
fn queries() {
    let store = by_hand();
    let (mut output, mut workspace) = (vec![STRANGE; 96], vec![STRANGE; 64]);
    for t in [60, 61, u64::MAX] {
        assert_eq!(refused(store.table(t, &mut output[..31])), 13);
        for [a, b] in [[t, 20], [20, t], [t, t], [t, 60]] {
            assert_eq!(refused(store.net_change(a, b, &mut output[..95], &mut workspace)), 13);
            assert_eq!(refused(store.net_change(a, b, &mut output, &mut workspace[..63])), 13);
        }
    }
    assert!(output.iter().chain(&workspace).all(|byte| *byte == STRANGE));
    for t in [60, 61, u64::MAX] {
        assert!(store.position(t).is_ok() && store.view(t).is_ok() && store.units(t).is_ok());
        assert!(store.table(t, &mut output[..32]).is_ok());
        for [a, b] in [[t, 20], [20, t], [t, t], [t, 60]] {
            assert!(store.units_between(a, b).is_ok());
            assert!(store.net_change(a, b, &mut output, &mut workspace).is_ok());
        }
    }
}

#[test]
fn keep_and_drop() {
    let mut store = opened(&log_by_hand());
    store.memory.catalogue.truncate(2);
    store.keep(20, 0).unwrap();
    // not full: 14, then space
    refuses(&mut store, 12, |store| store.keep(61, 0));
    refuses(&mut store, 14, |store| store.keep(0, 0));
    refuses(&mut store, 14, |store| store.keep(20, 0));
    refuses(&mut store, 14, |store| store.keep(20, 5));
    // a wrong mark: 12 goes before 18, and 18 before 14
    refuses(&mut store, 12, |store| store.keep(61, 6));
    refuses(&mut store, 18, |store| store.keep(0, 6));
    refuses(&mut store, 18, |store| store.keep(20, 6));
    refuses(&mut store, 18, |store| store.keep(60, 6));
    // between two requests, before the first and at the last time: all may be kept
    store.keep(25, 0).unwrap();
    // full: 14 goes before 15
    refuses(&mut store, 12, |store| store.keep(61, 0));
    refuses(&mut store, 14, |store| store.keep(0, 0));
    refuses(&mut store, 14, |store| store.keep(25, 0));
    refuses(&mut store, 15, |store| store.keep(60, 0));
    refuses(&mut store, 15, |store| store.keep(60, 7));
    // full and a wrong mark: 12, then 18, before the others
    refuses(&mut store, 12, |store| store.keep(61, 6));
    refuses(&mut store, 18, |store| store.keep(0, 6));
    refuses(&mut store, 18, |store| store.keep(25, 6));
    refuses(&mut store, 18, |store| store.keep(60, 6));
    refuses(&mut store, 16, |store| store.drop_file(0));
    refuses(&mut store, 16, |store| store.drop_file(60));
    refuses(&mut store, 16, |store| store.drop_file(61));
    store.drop_file(20).unwrap();
    store.keep(1, 0).unwrap();
    assert_eq!(store.memory.catalogue[0].rows, 0);
    store.drop_file(25).unwrap();
    store.keep(60, 0).unwrap();
    assert!(store.audit());
}

#[test]
fn a_store_without_capacity_keeps_nothing() {
    let mut store = by_hand();
    store.memory.areas.truncate(31);
    refuses(&mut store, 15, |store| store.keep(20, 0));
    refuses(&mut store, 18, |store| store.keep(20, 6));
    assert!(store.audit());
}
