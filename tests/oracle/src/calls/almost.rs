//! Stores that are right but for one thing, which the audit must see: a wrong log that numbers, index and table
//! agree with, a wrong count file, or a wrong mark.

use super::any_mark;
use crate::layout::{Header, Record, DELETION, HEADER_BYTES, INSERTION, ROW_BYTES};
use crate::limits::{MOST_RECORDS, ORDERS, PAGE_SIZES, ROW_LIMITS};
use crate::log::{log_length, page_times, records};
use crate::outset::Entry;
use crate::random::Random;
use crate::store::{capacity, Memory, Numbers, Store};
use crate::table::{table_bytes, table_length, timeslice};
use crate::tree::{word_count, words};

/// Changes a record, unless an opening has just refused the log, and makes the rest agree with it.
pub fn wrong_log(random: &mut Random, store: &mut Store) {
    let Some(header) = whole_log(&store.memory) else { return };
    if store.numbers != Numbers::default() && header.records > 0 {
        change_record(random, &mut store.memory.log, header.records as usize);
    }
    agree(store, header);
}

/// The header, if the log and all that belongs to it have space in the lent memory.
fn whole_log(memory: &Memory) -> Option<Header> {
    let header = (memory.log.len() >= HEADER_BYTES).then(|| Header::read(&memory.log))?;
    let Header { order, page_size, row_limit, records, .. } = header;
    let whole = ORDERS.contains(&order)
        && PAGE_SIZES.contains(&page_size)
        && ROW_LIMITS.contains(&row_limit)
        && records <= MOST_RECORDS
        && memory.log.len() >= log_length(records)
        && memory.index.len() >= word_count(order, page_size, records)
        && memory.table.len() >= table_length(row_limit);
    whole.then_some(header)
}

/// One field of one record, by little.
fn change_record(random: &mut Random, log: &mut [u8], n: usize) {
    let at = |k: usize| log_length(k as u32)..log_length(k as u32 + 1);
    let k = random.place(n);
    let other = Record::read(&log[at(random.place(n))]);
    let before = Record::read(&log[at(k.saturating_sub(1))]);
    let mut record = Record::read(&log[at(k)]);
    match random.from(0, 9) {
        0 => record.length = record.length.wrapping_add(1),
        1 => record.kind = (INSERTION + DELETION).wrapping_sub(record.kind),
        2 => record.id = record.id.wrapping_add(1),
        3 => record.time = before.time,
        4 => record.time = record.time.wrapping_sub(1),
        5 => record.time = record.time.wrapping_add(1),
        6 => record.time = random.pick(&[0, other.time, u64::MAX]),
        7 => record.article = other.article,
        8 => record.count ^= 1,
        _ => (record.article, record.count) = (other.article, other.count),
    }
    log[at(k)].copy_from_slice(&record.bytes());
}

/// Numbers, index and table are those of the log as it stands, and no file is kept.
fn agree(store: &mut Store, header: Header) {
    let Store { numbers, memory } = store;
    let Header { order, page_size, row_limit, records: n, last, .. } = header;
    let records = records(&memory.log, n);
    let words = words(order, &page_times(page_size, &records));
    memory.index[..words.len()].copy_from_slice(&words);
    let mut rows = timeslice(&records, last);
    rows.truncate(row_limit as usize);
    memory.table[..table_length(row_limit)].copy_from_slice(&table_bytes(row_limit, &rows));
    let entries = ..capacity(row_limit, memory);
    memory.catalogue[entries].fill(Entry::default());
    *numbers = Numbers { order, page_size, row_limit, records: n, last, live: rows.len() as u32, files: 0 };
}

/// One thing wrong with the count files.
pub fn wrong_file(random: &mut Random, Store { numbers, memory }: &mut Store) {
    let Numbers { row_limit, last, live, files, .. } = *numbers;
    let (files, length) = (files as usize, ROW_BYTES * row_limit.min(*ROW_LIMITS.end()) as usize);
    let Memory { table, catalogue, areas, .. } = memory;
    if files == 0 || files > catalogue.len() || files * length > areas.len() || length > table.len() {
        return;
    }
    let i = random.place(files);
    let next = (i + 1) % files;
    match random.from(0, 8) {
        // one file twice
        0 => {
            catalogue[next] = catalogue[i];
            areas.copy_within(i * length..(i + 1) * length, next * length);
        }
        // two files exchanged
        1 => {
            catalogue.swap(i, next);
            (0..length).for_each(|k| areas.swap(i * length + k, next * length + k));
        }
        // the current table, but after the last time
        2 => {
            let mark = catalogue[files - 1].mark;
            catalogue[files - 1] = Entry { time: last.saturating_add(1), rows: live, mark };
            areas[(files - 1) * length..files * length].copy_from_slice(&table[..length]);
        }
        // the empty table of time 0
        3 => {
            catalogue[0] = Entry::default();
            areas[..length].fill(0);
        }
        // a row of zeros more, or a row fewer
        4 => catalogue[i].rows = catalogue[i].rows.wrapping_add(1),
        5 => catalogue[i].rows = catalogue[i].rows.wrapping_sub(1),
        6 => {
            catalogue[i].time =
                random.pick(&[catalogue[i].time.wrapping_sub(1), catalogue[i].time.wrapping_add(1), last])
        }
        // two rows exchanged, or their counts alone: the total stays
        which if length >= 2 * ROW_BYTES => {
            let from = if which == 7 { 0 } else { 4 };
            (from..ROW_BYTES).for_each(|k| areas.swap(i * length + k, i * length + ROW_BYTES + k))
        }
        _ => {}
    }
}

/// The mark of an entry, mostly of a used one, sometimes past the capacity. Where it is another right mark of a used one,
/// the audit says yes.
pub fn other_mark(random: &mut Random, Store { numbers, memory }: &mut Store) {
    let entries = memory.catalogue.len();
    let used = entries.min(numbers.files as usize);
    let among = if used > 0 && random.percent(60) { used } else { entries };
    if among > 0 {
        memory.catalogue[random.place(among)].mark = any_mark(random);
    }
}
