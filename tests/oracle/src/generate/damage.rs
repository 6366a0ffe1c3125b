//! Damage to a legal log, one field or one rule at a time. A few of them can leave a legal log; the
//! oracle tells.

use super::change::{self, other_small, Change};
use super::{Damage, Log};
use crate::layout::{Record, DELETION, INSERTION};
use crate::limits::MOST_RECORDS;
use crate::log::last_time;
use crate::random::Random;
use crate::table::timeslice;

pub const DAMAGES: [(&str, Damage); 30] = [
    ("record length", |random, log| change_record(random, log, change::length)),
    ("record kind", |random, log| change_record(random, log, change::kind)),
    ("insertion for deletion or back", |random, log| change_record(random, log, change::turned)),
    ("record id", |random, log| change_record(random, log, change::id)),
    ("record time", |random, log| change_record(random, log, change::time)),
    ("record time 0", |random, log| change_record(random, log, change::no_time)),
    ("time equal to the one before", |random, log| change_time(random, log, |time| time)),
    ("time lower than the one before", |random, log| change_time(random, log, |time| time.saturating_sub(1))),
    ("article", |random, log| change_record(random, log, change::article)),
    ("insertion of a present article", insert_present),
    ("insertion with another count", |random, log| change_kind(random, log, INSERTION, change::count)),
    ("deletion of an absent article", |random, log| change_kind(random, log, DELETION, change::article)),
    ("deletion with another count", |random, log| change_kind(random, log, DELETION, change::count)),
    ("row limit below the rows live", fewer_rows),
    ("header length", |random, log| {
        change_header(random, log, |random, log| log.header.length = other_small(random, 24))
    }),
    ("header kind", |random, log| {
        change_header(random, log, |random, log| log.header.kind = other_small(random, 1))
    }),
    ("order", |random, log| {
        change_header(random, log, |random, log| log.header.order = random.pick(&[0, 1, 65, 258, u16::MAX]))
    }),
    ("page size", |random, log| {
        change_header(random, log, |random, log| {
            log.header.page_size = random.pick(&[0, 1, 65, 258, u16::MAX])
        })
    }),
    ("row limit", |random, log| {
        change_header(random, log, |random, log| {
            log.header.row_limit = random.pick(&[0, 1025, 65_540, u32::MAX])
        })
    }),
    ("another order or page size in range", |random, log| {
        change_header(random, log, |random, log| {
            log.header.order = random.from(2, 64) as u16;
            log.header.page_size = random.from(2, 64) as u16;
        })
    }),
    ("one record fewer in the header", |random, log| {
        change_header(random, log, |_, log| log.header.records = log.header.records.saturating_sub(1))
    }),
    ("one record more in the header", |random, log| {
        change_header(random, log, |_, log| log.header.records += 1)
    }),
    ("too many records in the header", |random, log| {
        change_header(random, log, |random, log| {
            log.header.records = random.pick(&[2730, 2731, MOST_RECORDS, MOST_RECORDS + 1, u32::MAX]);
        })
    }),
    ("last time", |random, log| change_header(random, log, |random, log| log.header.last = random.next())),
    ("last time one off", |random, log| {
        change_header(random, log, |random, log| {
            let step = random.pick(&[1, u64::MAX]);
            log.header.last = log.header.last.wrapping_add(step);
        })
    }),
    ("last time of an empty log", |random, log| {
        change_header(random, log, |random, log| {
            log.header.records = 0;
            log.header.last = random.pick(&[1, log.header.last.max(1), u64::MAX]);
        })
    }),
    ("input cut", |random, log| {
        let mut bytes = log.bytes();
        bytes.truncate(random.place(bytes.len() + 1));
        bytes
    }),
    ("input cut within the last record", |random, mut log| {
        log.behind.clear();
        let mut bytes = log.bytes();
        bytes.truncate(bytes.len() - random.from(1, 24) as usize);
        bytes
    }),
    ("a bit flipped", |random, log| flip(random, log, 1)),
    ("bits flipped", |random, log| {
        let many = random.from(2, 5);
        flip(random, log, many)
    }),
];

fn change_header(random: &mut Random, mut log: Log, change: fn(&mut Random, &mut Log)) -> Vec<u8> {
    change(random, &mut log);
    log.bytes()
}

fn change_record(random: &mut Random, log: Log, change: Change) -> Vec<u8> {
    change_one(random, log, |_| true, change)
}

fn change_kind(random: &mut Random, log: Log, kind: u16, change: Change) -> Vec<u8> {
    change_one(random, log, |record| record.kind == kind, change)
}

/// Changes one of the records that answer the test, if there is one.
fn change_one(random: &mut Random, mut log: Log, test: impl Fn(&Record) -> bool, change: Change) -> Vec<u8> {
    let places: Vec<usize> = (0..log.records.len()).filter(|&k| test(&log.records[k])).collect();
    if !places.is_empty() {
        // the first and the last of them more often than another
        let k = match random.from(0, 3) {
            0 => places[0],
            1 => places[places.len() - 1],
            _ => random.pick(&places),
        };
        change(random, &mut log.records[k]);
    }
    log.bytes()
}

/// Gives a record after the first a time made from the one before; the header's last time goes with
/// the last record.
fn change_time(random: &mut Random, mut log: Log, time: fn(u64) -> u64) -> Vec<u8> {
    if log.records.len() >= 2 {
        let k = 1 + random.place(log.records.len() - 1);
        log.records[k].time = time(log.records[k - 1].time);
        log.header.last = last_time(&log.records);
    }
    log.bytes()
}

/// Gives an insertion the article of a row that is live there, other than its own.
fn insert_present(random: &mut Random, mut log: Log) -> Vec<u8> {
    let places: Vec<usize> = (1..log.records.len()).filter(|&k| log.records[k].kind == INSERTION).collect();
    if !places.is_empty() {
        let k = random.pick(&places);
        let live = timeslice(&log.records[..k], u64::MAX);
        if !live.is_empty() {
            log.records[k].article = random.pick(&live).article;
        }
    }
    log.bytes()
}

/// Lowers the row limit to one less than the most rows that are live at one time.
fn fewer_rows(_: &mut Random, mut log: Log) -> Vec<u8> {
    let (mut live, mut most) = (0, 0);
    for record in &log.records {
        live = if record.kind == INSERTION { live + 1 } else { live - 1 };
        most = most.max(live);
    }
    if most >= 2 {
        log.header.row_limit = most - 1;
    }
    log.bytes()
}

fn flip(random: &mut Random, log: Log, many: u64) -> Vec<u8> {
    let mut bytes = log.bytes();
    for _ in 0..many {
        let place = random.place(bytes.len());
        bytes[place] ^= 1 << random.from(0, 7);
    }
    bytes
}
