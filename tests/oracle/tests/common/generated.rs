//! Generated logs, opened with space for every count file, and times to ask them for.

use oracle::generate::Log;
use oracle::limits::{MOST_FILES, ROW_LIMITS};
use oracle::listing::LENT_INDEX;
use oracle::mark::MARKS;
use oracle::random::Random;
use oracle::store::{Memory, Store};
use oracle::table::table_length;
use std::collections::BTreeSet;

pub fn opened(log: &Log) -> Store {
    let area = table_length(log.header.row_limit);
    let mut store = Store::over(Memory {
        log: log.bytes(),
        index: vec![0; LENT_INDEX],
        table: vec![0; table_length(*ROW_LIMITS.end())],
        catalogue: vec![Default::default(); MOST_FILES],
        areas: vec![0; MOST_FILES * area],
    });
    store.open().unwrap();
    store
}

/// So many times at a request or beside it, and one anywhere, none after the last. There is a request.
pub fn times(random: &mut Random, log: &Log, many: u64) -> BTreeSet<u64> {
    let last = log.header.last;
    let mut times = BTreeSet::from([random.from(0, last)]);
    for _ in 0..many {
        let at = log.records[random.place(log.records.len())].time;
        times.insert(random.pick(&[at, at, at - 1, at.saturating_add(1)]).min(last));
    }
    times
}

/// Keeps files of some times, with any marks, in one of ten logs none; their times.
pub fn keep_some(random: &mut Random, store: &mut Store, log: &Log) -> BTreeSet<u64> {
    let many = random.from(0, MOST_FILES as u64 - 1);
    let mut kept = if random.percent(10) { BTreeSet::new() } else { times(random, log, many) };
    kept.remove(&0);
    kept.iter().for_each(|&t| store.keep(t, random.pick(&MARKS)).unwrap());
    kept
}
