//! The sample inputs of the listing: small logs named by what they show. `make_samples` writes them
//! as files.

use crate::layout::{Header, Record, DELETION, INSERTION};
use crate::log::{last_time, log_bytes};

/// Requests of a log made by hand.
#[derive(Clone, Copy)]
pub enum Request {
    Insert(u64, u32, u32),
    Delete(u64, u32, u32),
    /// time, article, old count, new count
    Update(u64, u32, u32, u32),
}

use Request::{Delete, Insert, Update};

/// 01, "One log by hand".
pub const BY_HAND: [Request; 6] = [
    Insert(10, 7, 50),
    Insert(20, 3, 12),
    Update(30, 7, 50, 44),
    Delete(40, 3, 12),
    Insert(50, 9, 5),
    Update(60, 9, 5, 6),
];

/// Times 10 20 | 20 30 | 40, a page of two records between two bars: three requests up to 20 and two after it. By one
/// half of the update there would be no more up to 20 than after it.
pub const SPLIT_AT_20: [Request; 4] =
    [Insert(10, 7, 50), Update(20, 7, 50, 44), Insert(30, 3, 12), Insert(40, 9, 5)];

/// Times 10 20 | 30 40 | 40 50: three requests up to 30 and three after it. By one half of the update there would be
/// fewer after it.
pub const SPLIT_AT_40: [Request; 5] =
    [Insert(10, 7, 50), Insert(20, 3, 12), Insert(30, 9, 5), Update(40, 7, 50, 44), Insert(50, 8, 1)];

/// Totals 4294967295, 8589934590, 12884901884 and 12884901882: above 2^32 from the second request on.
pub const OVER_32_BITS: [Request; 4] = [
    Insert(10, 1, u32::MAX),
    Insert(20, 2, u32::MAX),
    Insert(30, 3, u32::MAX - 1),
    Update(40, 2, u32::MAX, u32::MAX - 2),
];

/// Totals 50, 80, 92, 32, 32, 37 and 32: an update raises, lowers and leaves them.
pub const RAISED_AND_LOWERED: [Request; 7] = [
    Insert(10, 7, 50),
    Update(20, 7, 50, 80),
    Insert(30, 3, 12),
    Update(40, 7, 80, 20),
    Update(50, 3, 12, 12),
    Insert(60, 9, 5),
    Delete(70, 9, 5),
];

/// Totals 50, 44, 56, 12 and 0.
pub const EMPTIED_AGAIN: [Request; 5] =
    [Insert(10, 7, 50), Update(20, 7, 50, 44), Insert(30, 3, 12), Delete(40, 7, 44), Delete(50, 3, 12)];

/// The records of these requests, an update being two.
pub fn records_of(requests: &[Request]) -> Vec<Record> {
    let mut records = Vec::new();
    let mut add = |kind, time, article, count| {
        let id = records.len() as u32;
        records.push(Record::new(kind, id, time, article, count));
    };
    for &request in requests {
        match request {
            Insert(time, article, count) => add(INSERTION, time, article, count),
            Delete(time, article, count) => add(DELETION, time, article, count),
            Update(time, article, old, new) => {
                add(DELETION, time, article, old);
                add(INSERTION, time, article, new);
            }
        }
    }
    records
}

/// The bytes of a log with the right header for its records.
pub fn log_of(order: u16, page_size: u16, row_limit: u32, records: &[Record]) -> Vec<u8> {
    let header = Header::new(order, page_size, row_limit, records.len() as u32, last_time(records));
    log_bytes(&header, records)
}

/// The log of 01 by hand: d = 3, N = 2, R = 4.
pub fn log_by_hand() -> Vec<u8> {
    log_of(3, 2, 4, &records_of(&BY_HAND))
}

/// The name and the input of each sample, `NAME.log`.
pub fn samples() -> Vec<(&'static str, Vec<u8>)> {
    vec![
        ("log-by-hand", log_by_hand()),
        ("empty-log", log_of(2, 2, 1, &[])),
        ("empty-input", Vec::new()),
        ("short-input", log_by_hand()[..23].to_vec()),
        ("short-empty-log", log_of(2, 2, 1, &[])[..9].to_vec()),
        ("refused-1", header_changed(|header| header.kind = 2)),
        ("refused-2", header_changed(|header| header.order = 65)),
        ("refused-3", header_changed(|header| header.page_size = 1)),
        ("refused-4", header_changed(|header| header.row_limit = 1025)),
        ("refused-5", header_changed(|header| header.records = 2_730)),
        ("refused-17", header_changed(|header| header.row_limit = 1)),
        ("last-time-wrong", header_changed(|header| header.last = 61)),
        ("empty-log-last-time-wrong", Header::new(3, 2, 4, 0, 5).bytes()),
        ("update-over-two-pages", log_of(3, 2, 4, &records_of(&[Insert(10, 7, 50), Update(20, 7, 50, 44)]))),
        ("order-2", order_2()),
        ("edge-skips-two-levels", edge_skips_two_levels()),
        ("most-records", most_records()),
        ("longer-than-lent", longer_than_lent()),
        ("article-0-count-0", article_0_count_0()),
        ("cut-input", cut_input()),
        ("latest-times", latest_times()),
        // nearness in requests (02, wish 6): the candidates are time 0 and the last time
        ("one-page", log_of(3, 64, 5, &insertions(5))),
        ("tie-of-requests", log_of(3, 4, 6, &insertions(6))),
        ("split-update-later", log_of(3, 2, 4, &records_of(&SPLIT_AT_20))),
        ("split-update-tie", log_of(3, 2, 4, &records_of(&SPLIT_AT_40))),
        ("crowded-start", crowded([1, 2, 3, 4, 1_000])),
        ("crowded-end", crowded([996, 997, 998, 999, 1_000])),
        // the units below the last table (02, wish 1)
        ("units-over-32-bits", log_of(3, 2, 4, &records_of(&OVER_32_BITS))),
        ("units-raised-and-lowered", log_of(3, 2, 4, &records_of(&RAISED_AND_LOWERED))),
        ("units-of-an-emptied-store", log_of(3, 2, 4, &records_of(&EMPTIED_AGAIN))),
    ]
}

/// 01's log with one field of its header changed.
fn header_changed(change: fn(&mut Header)) -> Vec<u8> {
    let records = records_of(&BY_HAND);
    let mut header = Header::new(3, 2, 4, records.len() as u32, last_time(&records));
    change(&mut header);
    log_bytes(&header, &records)
}

/// Five pages at order 2: each leaf after the first brings an inner node.
fn order_2() -> Vec<u8> {
    log_of(2, 2, 9, &insertions(9))
}

/// Insertions of articles 1, 2, 3 … at times 5, 10, 15 …
fn insertions(many: u32) -> Vec<Record> {
    (0..many).map(|k| Record::new(INSERTION, k, 5 * (k as u64 + 1), k + 1, 10 * k)).collect()
}

/// d = 3, N = 2, twenty pages, ten leaves: root 13 is at level 3 and leaf 9 hangs on it.
fn edge_skips_two_levels() -> Vec<u8> {
    log_of(3, 2, 40, &insertions(40))
}

/// 2,729 records, the most that fit: 900 insertions, 29 deletions, and 900 updates of the 871
/// articles left.
fn most_records() -> Vec<u8> {
    let mut requests: Vec<Request> = (0..900).map(|k| Insert(k + 1, k as u32, 1)).collect();
    requests.extend((0..29).map(|k| Delete(1_000 + k, 31 * k as u32, 1)));
    let left: Vec<u32> = (0..900).filter(|article| article % 31 != 0 || *article >= 29 * 31).collect();
    for k in 0..900 {
        let old = if k < left.len() { 1 } else { 2 };
        requests.push(Update(2_000 + 3 * k as u64, left[k % left.len()], old, 2));
    }
    log_of(2, 2, 900, &records_of(&requests))
}

/// 01's log and bytes behind it, to past the 65,536 lent ones.
fn longer_than_lent() -> Vec<u8> {
    let mut bytes = log_by_hand();
    bytes.resize(66_000, 0xFF);
    bytes
}

/// Article 0 with count 0 is a row, though its bytes are zero.
fn article_0_count_0() -> Vec<u8> {
    log_of(3, 2, 4, &records_of(&[Insert(10, 0, 0), Insert(20, 5, 1), Delete(30, 5, 1), Delete(40, 0, 0)]))
}

/// An input cut within its last record: the bytes that are missing are the zeros of article 256 and
/// count 0.
fn cut_input() -> Vec<u8> {
    let mut bytes = log_of(3, 2, 4, &records_of(&[Insert(10, 7, 50), Insert(20, 256, 0)]));
    bytes.truncate(bytes.len() - 6);
    bytes
}

/// Times up to 2^64 − 1, an update at the last one.
fn latest_times() -> Vec<u8> {
    let end = u64::MAX;
    let requests =
        [Insert(1, 7, 50), Insert(1 << 63, 3, 12), Insert(end - 1, 8, u32::MAX), Update(end, 7, 50, 44)];
    log_of(2, 2, 3, &records_of(&requests))
}

/// Five requests, the third of them nearer in requests to the last time than to time 0, whichever is nearer in time.
fn crowded(times: [u64; 5]) -> Vec<u8> {
    let [a, b, c, d, e] = times;
    let requests = [Insert(a, 7, 50), Insert(b, 3, 12), Delete(c, 7, 50), Insert(d, 8, 1), Delete(e, 3, 12)];
    log_of(3, 2, 2, &records_of(&requests))
}
