//! A front part of a legal log with records at its end that break one rule of times or rows (01,
//! "Log bytes"). The header counts them and has their last time, so nothing else is wrong.

use super::{Damage, Log, MOST_LISTED};
use crate::layout::{Record, Row, DELETION, INSERTION};
use crate::log::last_time;
use crate::random::Random;
use crate::table::timeslice;

/// A request to put at the end: kind, time, article, count.
type Request = (u16, u64, u32, u32);

pub const WRONG_ENDS: [(&str, Damage); 11] = [
    ("present article inserted at the end", |random, log| {
        end(random, log, |random, t, _, old| vec![(INSERTION, t, old.article, random.pick(&[0, old.count]))])
    }),
    ("absent article deleted at the end", |random, log| {
        end(random, log, |_, t, new, _| vec![delete(t, new)])
    }),
    ("another count deleted at the end", |random, log| {
        end(random, log, |random, t, _, old| {
            vec![(DELETION, t, old.article, old.count.wrapping_add(random.pick(&[1, u32::MAX])))]
        })
    }),
    ("insertion and deletion at one time", |random, log| {
        end(random, log, |_, t, new, old| vec![delete(t - 1, old), insert(t, new), delete(t, new)])
    }),
    ("two insertions at one time", |random, log| {
        end(random, log, |_, t, new, old| vec![delete(t - 1, old), insert(t, new), insert(t, old)])
    }),
    ("two articles at one time", |random, log| {
        end(random, log, |_, t, new, old| vec![delete(t, old), insert(t, new)])
    }),
    ("two deletions at one time", |random, log| {
        end(random, log, |_, t, new, old| vec![insert(t - 1, new), delete(t, old), delete(t, new)])
    }),
    ("third record at an update's time", |random, log| {
        end(random, log, |_, t, _, old| vec![delete(t, old), insert(t, old), delete(t, old)])
    }),
    ("two updates at one time", |random, log| {
        end(random, log, |_, t, _, old| vec![delete(t, old), insert(t, old), delete(t, old), insert(t, old)])
    }),
    ("update of an absent article", |random, log| {
        end(random, log, |_, t, new, _| vec![delete(t, new), insert(t, new)])
    }),
    ("update with another count", |random, log| {
        end(random, log, |random, t, _, old| {
            let count = old.count.wrapping_add(random.pick(&[1, u32::MAX]));
            vec![(DELETION, t, old.article, count), insert(t, old)]
        })
    }),
];

fn insert(time: u64, row: Row) -> Request {
    (INSERTION, time, row.article, row.count)
}

fn delete(time: u64, row: Row) -> Request {
    (DELETION, time, row.article, row.count)
}

/// Cuts the log at a place where a row is live, and puts the requests there. They get a time two
/// above the last, a row whose article is absent and a row that is live. A log without such a place
/// stays as it is.
fn end(
    random: &mut Random,
    mut log: Log,
    requests: fn(&mut Random, u64, Row, Row) -> Vec<Request>,
) -> Vec<u8> {
    let kept = 1 + random.place(log.records.len().clamp(1, MOST_LISTED as usize - 8));
    let mut records = log.records.clone();
    records.truncate(kept);
    let live = timeslice(&records, u64::MAX);
    let time = last_time(&records).checked_add(2);
    if let (Some(time), false) = (time, live.is_empty()) {
        let old = random.pick(&live);
        let absent = (0..).find(|article| live.iter().all(|row| row.article != *article)).unwrap();
        let new = Row { article: absent, count: 7 };
        for (kind, time, article, count) in requests(random, time, new, old) {
            records.push(Record::new(kind, records.len() as u32, time, article, count));
        }
        log.header.records = records.len() as u32;
        log.header.last = last_time(&records);
        log.records = records;
        log.behind.clear();
    }
    log.bytes()
}
