//! How a list starts: lent memory, and a fresh store or an opening in it.

use super::{near, Call};
use crate::generate::case;
use crate::layout::{Header, Record, DELETION, HEADER_BYTES, INSERTION};
use crate::limits::{MOST_FILES, MOST_RECORDS, ORDERS, PAGE_SIZES, ROW_LIMITS};
use crate::log::log_length;
use crate::random::Random;
use crate::requests::{records_of, requests};
use crate::samples::log_of;
use crate::store::{Lengths, Memory};
use crate::table::table_length;
use crate::tree::word_count;

/// Order, page size and row limit: small, at an end of their range, or just outside it.
pub(super) fn settings(random: &mut Random) -> (u16, u16, u32) {
    match random.from(0, 19) {
        0 => (random.pick(&[0, 1, 65, u16::MAX]), random.from(1, 65) as u16, random.from(0, 1025) as u32),
        1 => (random.from(2, 64) as u16, random.pick(&[0, 1, 65, 258]), random.from(0, 1025) as u32),
        2 => {
            (random.from(2, 64) as u16, random.from(2, 64) as u16, random.pick(&[0, 1025, 65_537, u32::MAX]))
        }
        3 => (*ORDERS.end(), *PAGE_SIZES.end(), *ROW_LIMITS.end()),
        4..=6 => (random.from(2, 64) as u16, random.from(2, 64) as u16, random.from(1, 1024) as u32),
        _ => (random.from(2, 5) as u16, random.from(2, 4) as u16, random.from(1, 6) as u32),
    }
}

/// The lengths for a store of these settings that has space for about so many records.
fn lengths(random: &mut Random, (order, page_size, row_limit): (u16, u16, u32), records: u32) -> Lengths {
    let in_range =
        ORDERS.contains(&order) && PAGE_SIZES.contains(&page_size) && ROW_LIMITS.contains(&row_limit);
    if !in_range {
        return Lengths { log: 100, index: 100, table: 100, catalogue: 3, areas: 100 };
    }
    if random.percent(4) {
        return tiny(random);
    }
    // the log is full first, or the index
    let indexed = (records as u64 + random.from(0, 8)).saturating_sub(4) as u32;
    // the entries end first, or the areas; large areas are few, for the sake of time
    let files = random.from(0, 18) as usize;
    let area = table_length(row_limit);
    let areas = if random.percent(70) { near(random, files) } else { random.from(0, 18) as usize };
    let areas = if area <= 2_000 || random.percent(10) { areas } else { areas.min(3) };
    Lengths {
        log: near(random, log_length(records)),
        index: near(random, word_count(order, page_size, indexed)),
        table: near(random, area),
        catalogue: files,
        areas: near(random, areas * area),
    }
}

/// Lengths that hardly suffice for anything.
fn tiny(random: &mut Random) -> Lengths {
    let mut length = |most| random.from(0, most) as usize;
    Lengths { log: length(80), index: length(6), table: length(24), catalogue: length(3), areas: length(40) }
}

/// Lent memory and the call that starts a store in it.
pub fn start(random: &mut Random) -> (Memory, Call) {
    let fill = random.pick(&[0, 0xA5, 0xFF]);
    if random.percent(60) {
        let settings = settings(random);
        let records = if random.percent(97) { random.from(0, 60) } else { random.from(60, 600) } as u32;
        let memory = Memory::filled(lengths(random, settings, records), fill);
        return (memory, Call::Fresh(settings.0, settings.1, settings.2));
    }
    let bytes = case(random).bytes;
    let mut memory = Memory::filled(lengths_of_log(random, &bytes), fill);
    let shared = memory.log.len().min(bytes.len());
    memory.log[..shared].copy_from_slice(&bytes[..shared]);
    (memory, Call::Open)
}

/// The lengths for a log that is there already, with space for a few records more.
fn lengths_of_log(random: &mut Random, bytes: &[u8]) -> Lengths {
    if bytes.len() < HEADER_BYTES {
        return Lengths { log: bytes.len(), index: 9, table: 99, catalogue: 3, areas: 100 };
    }
    let Header { order, page_size, row_limit, records, .. } = Header::read(bytes);
    let more = random.pick(&[0, 0, 1, 2, 20]);
    lengths(random, (order, page_size, row_limit), records.min(3_000) + more)
}

/// A log of so many records with as many rows as there may be, its numbers in all their bytes.
pub fn large_log(random: &mut Random, order: u16, page_size: u16, records: u32) -> Vec<u8> {
    // times up to 9 for each record, so that the last one is below 2^64
    let spread = u64::MAX / (16 * records as u64);
    let mut records = records_of(&requests(random, *ROW_LIMITS.end(), records, None));
    records.iter_mut().for_each(|record| record.time *= spread);
    log_of(order, page_size, *ROW_LIMITS.end(), &records)
}

/// Memory for a large store with so many records and all count files, the log at its start.
pub fn large_memory(order: u16, page_size: u16, records: u32, log: &[u8]) -> Memory {
    let area = table_length(*ROW_LIMITS.end());
    let lengths = Lengths {
        log: log_length(records),
        index: word_count(order, page_size, records),
        table: area,
        catalogue: MOST_FILES,
        areas: MOST_FILES * area,
    };
    let mut memory = Memory::filled(lengths, 0xA5);
    memory.log[..log.len()].copy_from_slice(log);
    memory
}

/// A log with space for so many records up to the most there are, and calls that take and pass the last one.
pub fn last_records(order: u16, page_size: u16, left: u32) -> (Memory, Vec<Call>) {
    let kinds = [INSERTION, DELETION];
    let record = |k: u32| Record::new(kinds[k as usize % 2], k, k as u64 + 1, 7, 7 + k / 2);
    let records: Vec<Record> = (0..MOST_RECORDS - left).map(record).collect();
    let bytes = log_of(order, page_size, 2, &records);
    let lengths = Lengths {
        log: log_length(MOST_RECORDS + 2),
        index: word_count(order, page_size, MOST_RECORDS) + order as usize,
        table: 16,
        catalogue: 3,
        areas: 2 * 16 + 5,
    };
    let mut memory = Memory::filled(lengths, 0xA5);
    memory.log[..bytes.len()].copy_from_slice(&bytes);
    let mut calls = vec![Call::Open];
    for t in 65_600..65_602 {
        calls.extend([Call::Update(t, 7, 1), Call::Insert(t + 10, 8, 2), Call::Delete(t + 20, 8)]);
        calls.extend([Call::Position(t), Call::Table(t, 16), Call::Keep(t, 5), Call::Keep(t / 2, 7)]);
        calls.extend([Call::View(t / 2 + 1), Call::NetChange(t / 2, t, 48, 32), Call::Units(t / 2)]);
        calls.extend([Call::Units(t), Call::UnitsBetween(t, t / 2 + 1), Call::Audit, Call::DropMarked(5)]);
        calls.extend([Call::Keep(t / 2 + 1, 0), Call::DropMarked(7), Call::Audit, Call::Drop(t)]);
    }
    // after the last request
    for t in [65_700, u64::MAX] {
        calls.extend([
            Call::Position(t),
            Call::Table(t, 16),
            Call::View(t),
            Call::Keep(t, 0),
            Call::Units(t),
        ]);
        calls.extend([Call::NetChange(t, 9, 48, 32), Call::NetChange(9, t, 48, 32)]);
        calls.extend([Call::UnitsBetween(t, 9), Call::UnitsBetween(9, t), Call::UnitsBetween(t, 65_700)]);
    }
    (memory, calls)
}
