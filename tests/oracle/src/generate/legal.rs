//! Legal logs: all settings, few and many rows, updates, time gaps up to the 64-bit limit.

use super::{Log, MOST_LISTED};
use crate::layout::{Header, Record, DELETION, INSERTION};
use crate::limits::{ORDERS, PAGE_SIZES, ROW_LIMITS};
use crate::listing::LENT_LOG;
use crate::log::last_time;
use crate::random::Random;
use std::collections::BTreeMap;

/// A legal log of at most 2,729 records, sometimes with bytes behind the records.
pub fn legal_log(random: &mut Random) -> Log {
    let order = setting(random, *ORDERS.start() as u64, *ORDERS.end() as u64) as u16;
    let page_size = setting(random, *PAGE_SIZES.start() as u64, *PAGE_SIZES.end() as u64) as u16;
    let row_limit = row_limit(random);
    let size = size(random);
    let mut records = Writer::new(random, row_limit, size).write();
    // Sometimes a front part, which is legal too, also where it cuts an update in half.
    let mut behind = Vec::new();
    if !records.is_empty() && random.percent(15) {
        let cut = records.split_off(random.place(records.len()));
        behind = cut.iter().flat_map(Record::bytes).collect();
    }
    behind.extend(bytes_behind(random));
    let header = Header::new(order, page_size, row_limit, records.len() as u32, last_time(&records));
    Log { header, records, behind }
}

/// A setting in its range, often near one end.
fn setting(random: &mut Random, low: u64, high: u64) -> u64 {
    match random.from(0, 3) {
        0 => random.from(low, low + 2),
        1 => random.from(low, low + 8),
        2 => random.from(high - 1, high),
        _ => random.from(low, high),
    }
}

fn row_limit(random: &mut Random) -> u32 {
    let (low, high) = (*ROW_LIMITS.start() as u64, *ROW_LIMITS.end() as u64);
    setting(random, low, high) as u32
}

/// How many records, mostly few, seldom the most.
fn size(random: &mut Random) -> u32 {
    let most = MOST_LISTED as u64;
    let size = match random.from(1, 100) {
        1..=3 => random.from(0, 2),
        4..=60 => random.from(1, 60),
        61..=90 => random.from(60, 400),
        91..=98 => random.from(400, 1200),
        99 => random.from(1200, most),
        _ => most,
    };
    size as u32
}

fn bytes_behind(random: &mut Random) -> Vec<u8> {
    let length = match random.from(1, 100) {
        1..=12 => random.from(1, 200) as usize,
        13..=14 => LENT_LOG,
        _ => 0,
    };
    random.bytes(length)
}

/// How the times of a log rise.
#[derive(Clone, Copy)]
enum Gaps {
    One,
    Small,
    Wide,
    /// spread over all 64-bit times
    All,
    /// the last few times there are
    Latest,
}

/// Writes one log, record by record.
struct Writer<'a> {
    random: &'a mut Random,
    row_limit: usize,
    size: usize,
    articles: Vec<u32>,
    gaps: Gaps,
    /// in a hundred requests for a present article, how many are updates and not deletions
    updates: u64,
    live: BTreeMap<u32, u32>,
    records: Vec<Record>,
}

impl Writer<'_> {
    fn new(random: &mut Random, row_limit: u32, size: u32) -> Writer<'_> {
        let articles = articles(random);
        let gaps = random.pick(&[Gaps::One, Gaps::Small, Gaps::Small, Gaps::Wide, Gaps::All, Gaps::Latest]);
        let updates = random.pick(&[0, 30, 60, 95]);
        Writer {
            random,
            row_limit: row_limit as usize,
            size: size as usize,
            articles,
            gaps,
            updates,
            live: BTreeMap::new(),
            records: Vec::new(),
        }
    }

    fn write(mut self) -> Vec<Record> {
        while self.records.len() < self.size {
            match self.next_time() {
                Some(time) => self.request(time),
                None => break,
            }
        }
        self.records
    }

    /// A time above the last, or none at the limit.
    fn next_time(&mut self) -> Option<u64> {
        let last = last_time(&self.records);
        let left = u64::MAX - last;
        if left == 0 {
            return None;
        }
        let to_come = (self.size - self.records.len()) as u64;
        let most = match self.gaps {
            Gaps::One => 1,
            Gaps::Small => 10,
            Gaps::Wide => 1 << 40,
            Gaps::All => (left / to_come).saturating_mul(2).max(1),
            Gaps::Latest if last == 0 => return Some(u64::MAX - self.random.from(0, 2 * self.size as u64)),
            Gaps::Latest => 2,
        };
        Some(last + self.random.from(1, most.min(left)))
    }

    fn request(&mut self, time: u64) {
        let mut article = self.random.pick(&self.articles);
        if !self.live.contains_key(&article) && self.live.len() == self.row_limit {
            // no row is free: take a present article
            article = *self.live.keys().nth(self.random.place(self.live.len())).unwrap();
        }
        match self.live.get(&article).copied() {
            None => self.insert(time, article),
            Some(count) => {
                let space = self.records.len() + 2 <= self.size;
                self.add(DELETION, time, article, count);
                self.live.remove(&article);
                if space && self.random.percent(self.updates) {
                    self.insert(time, article);
                }
            }
        }
    }

    fn insert(&mut self, time: u64, article: u32) {
        let count = count(self.random);
        self.add(INSERTION, time, article, count);
        self.live.insert(article, count);
    }

    fn add(&mut self, kind: u16, time: u64, article: u32, count: u32) {
        self.records.push(Record::new(kind, self.records.len() as u32, time, article, count));
    }
}

/// The articles a log draws from: few or many, close together or anywhere, 0 and the largest among
/// them.
fn articles(random: &mut Random) -> Vec<u32> {
    let many = match random.from(0, 2) {
        0 => random.from(1, 6),
        1 => random.from(1, 60),
        _ => random.from(60, 3000),
    };
    let together = random.percent(50);
    let mut articles: Vec<u32> =
        (0..many).map(|i| if together { i as u32 } else { random.next() as u32 }).collect();
    if random.percent(30) {
        articles.extend([0, u32::MAX]);
    }
    articles
}

fn count(random: &mut Random) -> u32 {
    match random.from(0, 3) {
        0 => random.pick(&[0, 1, u32::MAX]),
        1 => random.next() as u32,
        _ => random.from(0, 99) as u32,
    }
}
