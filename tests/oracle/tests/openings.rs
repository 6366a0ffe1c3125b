//! Opening: its refusals in order, what 17 refuses, and what is zero then.

mod common;

use common::{memory_with, position, refused, strange, wrong_record, AMPLE, STRANGE};
use oracle::layout::{Header, Record, DELETION, INSERTION};
use oracle::limits::MOST_RECORDS;
use oracle::log::{first_wrong, log_bytes, log_length};
use oracle::outset::Entry;
use oracle::samples::{log_by_hand, log_of, records_of, Request, BY_HAND};
use oracle::store::{Lengths, Memory, Numbers, Store};
use Request::{Delete, Insert, Update};

/// A refusal before 17: the number, memory unchanged and all numbers zero.
fn refusal(memory: Memory) -> u8 {
    let numbers = Numbers { order: 3, page_size: 2, row_limit: 4, records: 1, last: 9, live: 1, files: 1 };
    let mut store = Store { numbers, memory: memory.clone() };
    let number = refused(store.open());
    assert_eq!(store, Store::over(memory));
    number
}

fn wrong_record_of(requests: &[Request]) -> u32 {
    wrong_record(memory_with(&log_of(3, 2, 4, &records_of(requests))))
}

fn header_changed(change: fn(&mut Header)) -> Memory {
    let mut header = Header::read(&log_by_hand());
    change(&mut header);
    memory_with(&log_bytes(&header, &records_of(&BY_HAND)))
}

#[test]
fn refusals_in_order() {
    let short = |log| Memory { log, ..strange() };
    assert_eq!(refusal(short(vec![])), 1);
    assert_eq!(refusal(short(log_by_hand()[..23].to_vec())), 1);
    assert_eq!(refusal(header_changed(|header| header.length = 23)), 1);
    assert_eq!(refusal(header_changed(|header| (header.kind, header.order) = (2, 0))), 1);
    assert_eq!(refusal(header_changed(|header| (header.order, header.page_size) = (1, 0))), 2);
    assert_eq!(refusal(header_changed(|header| header.order = 65)), 2);
    assert_eq!(refusal(header_changed(|header| (header.page_size, header.row_limit) = (65, 0))), 3);
    assert_eq!(refusal(header_changed(|header| (header.row_limit, header.records) = (0, u32::MAX))), 4);
    assert_eq!(refusal(header_changed(|header| header.row_limit = 1025)), 4);
    assert_eq!(refusal(header_changed(|header| (header.records, header.last) = (u32::MAX, 0))), 5);
    assert_eq!(refusal(header_changed(|header| header.records = MOST_RECORDS + 1)), 5);
    assert_eq!(refusal(short(log_by_hand()[..24].to_vec())), 5);
}

#[test]
fn least_lengths() {
    let least = Lengths { log: log_length(8), index: 6, table: 32, catalogue: 0, areas: 0 };
    let memory = |lengths: Lengths| {
        let mut memory = Memory::filled(lengths, STRANGE);
        memory.log.copy_from_slice(&log_by_hand()[..lengths.log]);
        memory
    };
    assert_eq!(Store::over(memory(least)).open(), Ok(()));
    assert_eq!(refusal(memory(Lengths { log: least.log - 1, ..least })), 5);
    assert_eq!(refusal(memory(Lengths { index: 5, ..least })), 5);
    assert_eq!(refusal(memory(Lengths { table: 31, ..least })), 5);
}

/// One more than the most records is refused even where all of them are there.
#[test]
fn too_many_records() {
    let many = MOST_RECORDS + 1;
    let records: Vec<Record> =
        (0..many).map(|k| Record::new(INSERTION + (k % 2) as u16, k, k as u64 + 1, 7, 5)).collect();
    let mut memory = strange();
    memory.log = log_of(64, 64, 1, &records);
    memory.index = vec![0; 70_000];
    assert_eq!(refusal(memory.clone()), 5);
    memory.log[..24].copy_from_slice(&Header::new(64, 64, 1, MOST_RECORDS, MOST_RECORDS as u64).bytes());
    assert_eq!(Store::over(memory).open(), Ok(()));
}

#[test]
fn an_accepted_opening_writes_nodes_table_and_catalogue_only() {
    let before = memory_with(&log_by_hand());
    let mut store = Store::over(before.clone());
    store.open().unwrap();
    let mut expected = before;
    expected.index[..6].copy_from_slice(&[10, 30, 30, 0, 40, 60]);
    expected.table[..32].fill(0);
    expected.table[..16].copy_from_slice(&[7, 0, 0, 0, 44, 0, 0, 0, 9, 0, 0, 0, 6, 0, 0, 0]);
    expected.catalogue[..16].fill(Entry::default());
    assert_eq!(store.memory, expected);
    let numbers = Numbers { order: 3, page_size: 2, row_limit: 4, records: 8, last: 60, live: 2, files: 0 };
    assert_eq!(store.numbers, numbers);
}

/// n − 1 records of an update whose last one is the deletion: its time still fits, a legal log.
#[test]
fn half_an_update_is_legal() {
    let mut store = Store::over(header_changed(|header| header.records = 7));
    store.open().unwrap();
    assert_eq!((store.numbers.live, store.numbers.last), (1, 60));
}

#[test]
fn fields() {
    let changes: [fn(&mut Record); 8] = [
        |record| record.length = 23,
        |record| record.length = 24 + 256,
        |record| record.kind = 1,
        |record| record.kind = 4,
        |record| record.kind = DELETION,
        |record| record.id = 0,
        |record| record.time = 0,
        |record| record.time = 10,
    ];
    for change in changes {
        let mut records = records_of(&BY_HAND);
        change(&mut records[1]);
        assert_eq!(wrong_record(memory_with(&log_of(3, 2, 4, &records))), 1);
    }
}

#[test]
fn times() {
    let start = [Insert(10, 7, 50), Insert(20, 3, 12)];
    let then = |more: &[Request]| wrong_record_of(&[&start[..], more].concat());
    // lower, equal
    assert_eq!(then(&[Insert(19, 9, 1)]), 2);
    assert_eq!(then(&[Insert(20, 9, 1)]), 2);
    assert_eq!(then(&[Delete(20, 3, 12)]), 2);
    assert_eq!(wrong_record_of(&[Insert(0, 7, 50)]), 0);
    // two records at one time that are no update
    assert_eq!(then(&[Delete(30, 3, 12), Insert(30, 9, 1)]), 3);
    assert_eq!(then(&[Delete(30, 3, 12), Delete(30, 7, 50)]), 3);
    assert_eq!(then(&[Insert(30, 9, 1), Delete(30, 9, 1)]), 3);
    assert_eq!(then(&[Insert(30, 9, 1), Insert(30, 10, 1)]), 3);
    // a third record at an update's time
    assert_eq!(then(&[Update(30, 3, 12, 13), Delete(30, 3, 13)]), 4);
    assert_eq!(then(&[Update(30, 3, 12, 13), Insert(30, 9, 1)]), 4);
    assert_eq!(then(&[Update(30, 3, 12, 13), Update(30, 3, 13, 14)]), 4);
    assert_eq!(then(&[Update(30, 3, 12, 13), Update(30, 7, 50, 51)]), 4);
    // an update right after another is legal
    let records = records_of(&[Insert(10, 7, 50), Update(20, 7, 50, 50), Update(21, 7, 50, 1)]);
    assert_eq!(first_wrong(1, &records), None);
}

#[test]
fn rows() {
    let start = [Insert(10, 7, 50), Insert(20, 3, 12)];
    let then = |more: &[Request]| wrong_record_of(&[&start[..], more].concat());
    assert_eq!(then(&[Insert(30, 7, 50)]), 2);
    assert_eq!(then(&[Delete(30, 9, 1)]), 2);
    assert_eq!(then(&[Delete(30, 7, 51)]), 2);
    assert_eq!(then(&[Delete(30, 7, 50), Delete(40, 7, 50)]), 3);
    // a fifth row, though one goes again later
    assert_eq!(then(&[Insert(30, 1, 1), Insert(40, 2, 1), Insert(50, 4, 1), Delete(60, 1, 1)]), 4);
    // article and count may be any value
    let records = records_of(&[Insert(1, 0, 0), Insert(2, u32::MAX, u32::MAX), Delete(3, 0, 0)]);
    assert_eq!(first_wrong(2, &records), None);
}

/// Capacity comes from the header's row limit: areas of 100 bytes.
#[test]
fn capacity_by_areas() {
    for (row_limit, capacity) in [(4, 3), (12, 1), (13, 0)] {
        let lengths = Lengths { areas: 100, ..AMPLE };
        let mut memory = Memory::filled(lengths, STRANGE);
        memory.log[..24].copy_from_slice(&Header::new(3, 2, row_limit, 0, 0).bytes());
        let before = memory.clone();
        let mut store = Store::over(memory);
        store.open().unwrap();
        assert_eq!(store.capacity(), capacity);
        assert!(store.memory.catalogue[..capacity].iter().all(|entry| *entry == Entry::default()));
        assert_eq!(store.memory.catalogue[capacity..], before.catalogue[capacity..]);
        assert_eq!(store.memory.areas, before.areas);
    }
}

/// An empty log takes no index word.
#[test]
fn empty_log() {
    let lengths = Lengths { log: 24, index: 0, table: 8, catalogue: 1, areas: 8 };
    let mut memory = Memory::filled(lengths, STRANGE);
    memory.log = Header::new(64, 64, 1, 0, 0).bytes();
    let mut store = Store::over(memory);
    store.open().unwrap();
    assert!(store.audit());
    assert_eq!((position(&store, 0), position(&store, 1)), ((0, 0), (0, 0)));
    assert_eq!(refused(store.keep(0, 0)), 14);
    assert_eq!(refused(store.keep(1, 0)), 12);
}
