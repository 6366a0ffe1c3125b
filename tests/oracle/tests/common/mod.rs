//! Stores and answers that several tests use.
#![allow(dead_code)]

pub mod deletions;
pub mod generated;
pub mod legal;
pub mod parts;
pub mod set;
pub mod units;

use oracle::layout::{Header, Record, Row};
use oracle::net_change::output_length;
use oracle::outset::{earlier_candidate, later_candidate, Entry, Held, Side};
use oracle::position::Position;
use oracle::samples::{log_by_hand, log_of, records_of, Request};
use oracle::store::{capacity, Lengths, Memory, Refusal, Store, TableAnswer};
use oracle::table::table_length;
use oracle::tree::word_count;

/// What a stranger filled the memory with.
pub const STRANGE: u8 = 0xA5;

/// Room for everything these tests do with a row limit of up to 16.
pub const AMPLE: Lengths = Lengths { log: 4096, index: 512, table: 160, catalogue: 18, areas: 18 * 128 };

pub fn strange() -> Memory {
    Memory::filled(AMPLE, STRANGE)
}

pub fn fresh(order: u16, page_size: u16, row_limit: u32) -> Store {
    let mut store = Store::over(strange());
    store.fresh(order, page_size, row_limit).unwrap();
    store
}

/// Strange memory with these bytes at the front of the log.
pub fn memory_with(log: &[u8]) -> Memory {
    let mut memory = strange();
    memory.log[..log.len()].copy_from_slice(log);
    memory
}

pub fn opened(log: &[u8]) -> Store {
    let mut store = Store::over(memory_with(log));
    store.open().unwrap();
    store
}

/// 01's log by hand, opened.
pub fn by_hand() -> Store {
    opened(&log_by_hand())
}

pub fn opened_with(order: u16, page_size: u16, row_limit: u32, requests: &[Request]) -> Store {
    opened(&log_of(order, page_size, row_limit, &records_of(requests)))
}

/// The number of a refusal that is a number alone.
pub fn refused<T: std::fmt::Debug>(answer: Result<T, Refusal>) -> u8 {
    let refusal = answer.unwrap_err();
    assert_eq!(refusal.record, None);
    refusal.question
}

/// The record number of a refusal by 17. Nodes, table and catalogue are zero, what lies past them
/// is unchanged.
pub fn wrong_record(memory: Memory) -> u32 {
    let header = Header::read(&memory.log);
    let mut store = Store::over(memory.clone());
    let Err(Refusal { question: 17, record: Some(record) }) = store.open() else {
        panic!("not refused by 17")
    };
    let mut expected = memory.clone();
    let words = word_count(header.order, header.page_size, header.records);
    expected.index[..words].fill(0);
    expected.table[..8 * header.row_limit as usize].fill(0);
    let capacity = capacity(header.row_limit, &memory);
    expected.catalogue[..capacity].fill(Entry::default());
    assert_eq!(store, Store::over(expected));
    record
}

/// Page and requests of the position of t.
pub fn position(store: &Store, t: u64) -> (u32, u32) {
    let Position { page, requests } = store.position(t).unwrap();
    (page, requests)
}

/// Rows and answer of the table of t.
pub fn table(store: &Store, t: u64) -> (Vec<(u32, u32)>, TableAnswer) {
    let mut output = vec![STRANGE; table_length(store.numbers.row_limit) + 5];
    let answer = store.table(t, &mut output).unwrap();
    let rows = output.chunks(8).take(answer.rows as usize).map(Row::read);
    (rows.map(|row| (row.article, row.count)).collect(), answer)
}

pub fn rows(list: &[(u32, u32)]) -> Vec<Row> {
    list.iter().map(|&(article, count)| Row { article, count }).collect()
}

/// Side and requests between of the table of t.
pub fn outset(store: &Store, t: u64) -> (Side, u32) {
    let answer = table(store, t).1;
    (answer.side, answer.requests_between)
}

/// The requests between two times, stated a second time and without a position: the records after the
/// one and at or before the other.
pub fn records_between(records: &[Record], a: u64, b: u64) -> u32 {
    let (low, high) = (a.min(b), a.max(b));
    records.iter().filter(|record| low < record.time && record.time <= high).count() as u32
}

/// 01's two candidates for t; after the last request, those of its time (02, wish 2).
pub fn candidates(store: &Store, t: u64) -> [Held; 2] {
    let (kept, last) = (store.kept(), store.numbers.last);
    let t = t.min(last);
    [earlier_candidate(kept, last, t), later_candidate(kept, last, t)]
}

/// The side that 01 chose before wish 6, when pages were counted: what a store that missed the wish
/// answers.
pub fn side_by_pages(store: &Store, t: u64) -> Side {
    let here = position(store, t).0;
    let [earlier, later] = candidates(store, t).map(|held| position(store, held.time).0.abs_diff(here));
    if later < earlier {
        Side::Later
    } else {
        Side::Earlier
    }
}

/// The entries of the net change from a to b as (kind, article, count).
pub fn net_change(store: &Store, a: u64, b: u64) -> Vec<(u16, u32, u32)> {
    let mut output = vec![STRANGE; output_length(store.numbers.row_limit) + 5];
    let mut workspace = vec![STRANGE; 2 * table_length(store.numbers.row_limit) + 5];
    let entries = store.net_change(a, b, &mut output, &mut workspace).unwrap() as usize;
    let word = |entry: &[u8], at: usize| u32::from_le_bytes(entry[at..at + 4].try_into().unwrap());
    output
        .chunks(12)
        .take(entries)
        .map(|entry| {
            assert_eq!(entry[..2], [12, 0]);
            assert_eq!(entry[3], 0);
            (entry[2] as u16, word(entry, 4), word(entry, 8))
        })
        .collect()
}
