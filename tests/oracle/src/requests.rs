//! Requests that fill a log, for the benchmark, for long walks and for large stores.

use crate::layout::{Record, DELETION, INSERTION};
use crate::random::Random;
use std::collections::BTreeMap;

#[derive(Clone, Copy, Debug)]
pub enum Request {
    Insert(u64, u32, u32),
    Delete(u64, u32),
    Update(u64, u32, u32),
}

/// Articles that share one slot of the walk's hints: `home` of crates/loose takes the upper 12 of 32 bits of a product with
/// an odd number, so the products are chosen and divided by it again.
pub fn colliding(count: u32) -> Vec<u32> {
    const FACTOR: u32 = 2_654_435_761;
    // five steps of Newton's: each doubles the bits that are right, from three on
    let inverse = (0..5).fold(FACTOR, |x, _| x.wrapping_mul(2u32.wrapping_sub(FACTOR.wrapping_mul(x))));
    (0..count).map(|k| inverse.wrapping_mul((77 << 20) | k)).collect()
}

/// So many records: rows up to the limit, then a deletion and an insertion, and updates, in turn. Articles are any, or of the
/// pool.
pub fn requests(random: &mut Random, limit: u32, most: u32, pool: Option<&[u32]>) -> Vec<Request> {
    let mut live: Vec<u32> = Vec::new();
    let (mut requests, mut records, mut time) = (Vec::new(), 0, 0);
    while records < most {
        time += random.from(1, 9);
        let count = random.next() as u32;
        let full = live.len() == limit as usize;
        if full && random.percent(50) && records + 2 <= most {
            requests.push(Request::Update(time, random.pick(&live), count));
            records += 2;
        } else if full {
            let place = random.place(live.len());
            requests.push(Request::Delete(time, live.swap_remove(place)));
            records += 1;
        } else {
            let article = match pool {
                Some(pool) => random.pick(pool),
                None => random.next() as u32,
            };
            if !live.contains(&article) {
                live.push(article);
                requests.push(Request::Insert(time, article, count));
                records += 1;
            }
        }
    }
    requests
}

/// The records that these requests append, an update two.
pub fn records_of(requests: &[Request]) -> Vec<Record> {
    let (mut live, mut records) = (BTreeMap::new(), Vec::new());
    for &request in requests {
        let (time, article, count) = match request {
            Request::Insert(time, article, count) | Request::Update(time, article, count) => {
                (time, article, Some(count))
            }
            Request::Delete(time, article) => (time, article, None),
        };
        let before = match count {
            Some(count) => live.insert(article, count),
            None => live.remove(&article),
        };
        for (kind, count) in [(DELETION, before), (INSERTION, count)] {
            if let Some(count) = count {
                records.push(Record::new(kind, records.len() as u32, time, article, count));
            }
        }
    }
    records
}
