//! What each accepted call writes, and that nothing else changes (traps T19 to T30).

mod common;

use common::{by_hand, fresh, strange, STRANGE};
use oracle::layout::{Header, Record, DELETION, INSERTION};
use oracle::log::log_length;
use oracle::outset::Entry;

const STRANGE_WORD: u64 = u64::from_le_bytes([STRANGE; 8]);

#[test]
fn fresh_store_writes_header_table_and_catalogue() {
    let store = fresh(3, 2, 4);
    let mut expected = strange();
    expected.log[..24]
        .copy_from_slice(&[24, 0, 1, 0, 3, 0, 2, 0, 4, 0, 0, 0, 0, 0, 0, 0, 0, 0, 0, 0, 0, 0, 0, 0]);
    expected.table[..32].fill(0);
    expected.catalogue[..16].fill(Entry::default());
    assert_eq!(store.memory, expected);
}

#[test]
fn insert_writes_header_record_table_and_nodes() {
    let mut store = fresh(3, 2, 4);
    let mut expected = store.memory.clone();
    store.insert(0x0102, 0x0A0B0C0D, 0x01020304).unwrap();
    expected.log[..24].copy_from_slice(&Header::new(3, 2, 4, 1, 0x0102).bytes());
    expected.log[24..48].copy_from_slice(&[
        24, 0, 2, 0, 0, 0, 0, 0, 2, 1, 0, 0, 0, 0, 0, 0, 0x0D, 0x0C, 0x0B, 0x0A, 4, 3, 2, 1,
    ]);
    // the new leaf's unused word is written as zero, the word past it is not touched
    expected.index[..2].copy_from_slice(&[0x0102, 0]);
    expected.table[..8].copy_from_slice(&[0x0D, 0x0C, 0x0B, 0x0A, 4, 3, 2, 1]);
    assert_eq!(store.memory, expected);
    assert_eq!(store.memory.index[2], STRANGE_WORD);
}

#[test]
fn delete_repeats_the_count_and_zeroes_the_row_that_went() {
    let mut store = by_hand();
    let mut expected = store.memory.clone();
    store.delete(61, 7).unwrap();
    expected.log[..24].copy_from_slice(&Header::new(3, 2, 4, 9, 61).bytes());
    expected.log[log_length(8)..log_length(9)].copy_from_slice(&Record::new(DELETION, 8, 61, 7, 44).bytes());
    // page 4 opens leaf 2; 2 modulo 3 is not 1, so the separator goes to the root
    expected.index[..8].copy_from_slice(&[10, 30, 30, 60, 40, 60, 61, 0]);
    expected.table[..16].copy_from_slice(&[9, 0, 0, 0, 6, 0, 0, 0, 0, 0, 0, 0, 0, 0, 0, 0]);
    assert_eq!(store.memory, expected);
}

#[test]
fn update_writes_two_records() {
    let mut store = by_hand();
    store.update(61, 9, 7).unwrap();
    let records = store.records();
    assert_eq!(records[8], Record::new(DELETION, 8, 61, 9, 6));
    assert_eq!(records[9], Record::new(INSERTION, 9, 61, 9, 7));
    assert!(store.memory.log[log_length(10)..].iter().all(|byte| *byte == STRANGE));
}

#[test]
fn keep_shifts_up_and_writes_a_whole_area() {
    let mut store = by_hand();
    store.keep(45, 7).unwrap();
    store.keep(20, 5).unwrap();
    let mut expected = by_hand().memory;
    expected.catalogue[0] = Entry { time: 20, rows: 2, mark: 5 };
    expected.catalogue[1] = Entry { time: 45, rows: 1, mark: 7 };
    expected.areas[..64].fill(0);
    expected.areas[..16].copy_from_slice(&[3, 0, 0, 0, 12, 0, 0, 0, 7, 0, 0, 0, 50, 0, 0, 0]);
    expected.areas[32..40].copy_from_slice(&[7, 0, 0, 0, 44, 0, 0, 0]);
    assert_eq!(store.memory, expected);
    assert_eq!(store.numbers.files, 2);
}

#[test]
fn drop_shifts_down_and_zeroes_the_last_entry_and_area() {
    let mut store = by_hand();
    store.keep(20, 5).unwrap();
    store.keep(45, 7).unwrap();
    store.drop_file(20).unwrap();
    let mut expected = by_hand().memory;
    expected.catalogue[0] = Entry { time: 45, rows: 1, mark: 7 };
    expected.areas[..64].fill(0);
    expected.areas[..8].copy_from_slice(&[7, 0, 0, 0, 44, 0, 0, 0]);
    assert_eq!(store.memory, expected);
    assert_eq!(store.numbers.files, 1);
}

/// At most 16 files, though more entries and areas are lent.
#[test]
fn sixteen_files() {
    let mut store = by_hand();
    for t in 1..=16 {
        store.keep(t, 0).unwrap();
    }
    assert_eq!(common::refused(store.keep(17, 0)), 15);
    assert_eq!(store.memory.catalogue[16..], strange().catalogue[16..]);
    assert!(store.memory.areas[16 * 32..].iter().all(|byte| *byte == STRANGE));
    assert!(store.audit());
}

#[test]
fn table_writes_its_8_r_bytes() {
    let store = by_hand();
    let mut output = [STRANGE; 40];
    store.table(45, &mut output).unwrap();
    let mut expected = [STRANGE; 40];
    expected[..32].fill(0);
    expected[..8].copy_from_slice(&[7, 0, 0, 0, 44, 0, 0, 0]);
    assert_eq!(output, expected);
}

#[test]
fn net_change_writes_output_and_workspace() {
    let store = by_hand();
    let (mut output, mut workspace) = ([STRANGE; 100], [STRANGE; 70]);
    assert_eq!(store.net_change(20, 45, &mut output, &mut workspace), Ok(3));
    let mut entries = vec![12, 0, 3, 0, 3, 0, 0, 0, 12, 0, 0, 0];
    entries.extend([12, 0, 3, 0, 7, 0, 0, 0, 50, 0, 0, 0]);
    entries.extend([12, 0, 2, 0, 7, 0, 0, 0, 44, 0, 0, 0]);
    entries.resize(96, 0);
    entries.resize(100, STRANGE);
    assert_eq!(output, entries.as_slice());
    let mut tables = vec![3, 0, 0, 0, 12, 0, 0, 0, 7, 0, 0, 0, 50, 0, 0, 0];
    tables.resize(32, 0);
    tables.extend([7, 0, 0, 0, 44, 0, 0, 0]);
    tables.resize(64, 0);
    tables.resize(70, STRANGE);
    assert_eq!(workspace, tables.as_slice());
}
