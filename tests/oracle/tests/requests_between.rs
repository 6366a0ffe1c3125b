//! Nearness counted in requests (02, wish 6) over generated logs with count files: requests between stated a second
//! time, by a filter over the records, and the outset used held against every table held.

mod common;

use common::generated::{keep_some, opened, times};
use common::{position, records_between, side_by_pages, table};
use oracle::generate::legal_log;
use oracle::layout::{Record, Row};
use oracle::outset::{Place, Side};
use oracle::random::Random;
use oracle::store::{Store, View};
use oracle::table::timeslice;
use std::collections::{BTreeMap, BTreeSet};

/// The nearest held time at or before t, and the nearest at or after it.
fn nearest(kept: &BTreeSet<u64>, last: u64, t: u64) -> [u64; 2] {
    let earlier = kept.range(..=t).next_back().copied().unwrap_or(0);
    let later = kept.range(t..).next().copied().unwrap_or(last);
    [earlier, later]
}

/// The time at which the table of a view is held.
fn time_of(store: &Store, view: &View) -> u64 {
    match view.place {
        Place::Empty => 0,
        Place::File(i) => store.kept()[i].time,
        Place::Current => store.numbers.last,
    }
}

/// The updates after the one time and at or before the other, and how many of them are split over two pages.
fn updates_between(page_size: u16, records: &[Record], a: u64, b: u64) -> [u32; 2] {
    let (low, high) = (a.min(b), a.max(b));
    let update = |k: usize| {
        let time = records[k].time;
        records[k - 1].time == time && low < time && time <= high
    };
    let splits = |k: &usize| k % page_size as usize == 0;
    let seconds: Vec<usize> = (1..records.len()).filter(|&k| update(k)).collect();
    [seconds.len() as u32, seconds.iter().filter(|k| splits(k)).count() as u32]
}

/// What the outset of t shows, each by its name.
fn shown(store: &Store, records: &[Record], kept: &BTreeSet<u64>, t: u64) -> Vec<&'static str> {
    let [earlier, later] = nearest(kept, store.numbers.last, t);
    let [before, after] = [earlier, later].map(|held| records_between(records, held, t));
    let at_t = records.iter().filter(|record| record.time == t).count() as u32;
    let [[updates_before, split_before], [updates_after, split_after]] =
        [earlier, later].map(|held| updates_between(store.numbers.page_size, records, held, t));
    let page = |time| position(store, time).0;
    let is_later = after < before;
    let later_by_pages = side_by_pages(store, t) == Side::Later;
    let later_by_time = later - t < t - earlier;
    let file = |time: &u64| kept.contains(time);
    let two_files = file(&earlier) && file(&later) && earlier < later;
    let all = [
        ("a tie", before == after && before > 0),
        ("a tie, later by pages", before == after && later_by_pages),
        ("a tie, later by time", before == after && later_by_time),
        ("later, earlier by pages", is_later && !later_by_pages),
        ("earlier, later by pages", before < after && later_by_pages),
        ("later, earlier by time", is_later && !later_by_time),
        ("earlier, later by time", before < after && later_by_time),
        ("later, and all on one page", is_later && page(earlier) == page(later)),
        ("two files, the earlier used", two_files && !is_later),
        ("two files, the later used", two_files && is_later),
        ("a file against the current table", file(&earlier) && !file(&later)),
        ("time 0 against a file", earlier == 0 && file(&later)),
        ("time 0 against the current table", earlier == 0 && !file(&later)),
        ("a kept time", file(&t)),
        ("another time held, and no request between", !file(&t) && before.min(after) == 0),
        ("no request at the time", at_t == 0),
        ("an update at the time", at_t == 2),
        ("later, not if records at the time counted on both sides", is_later && after + at_t >= before),
        ("a split update between", if is_later { split_after } else { split_before } > 0),
        (
            "another side by updates counted once",
            is_later != (after - updates_after < before - updates_before),
        ),
        (
            "another side by one half of those split",
            is_later != (after - split_after < before - split_before),
        ),
    ];
    all.into_iter().filter(|(_, met)| *met).map(|(name, _)| name).collect()
}

#[test]
fn the_outset_used_has_fewest_requests_between() {
    let mut met: BTreeMap<&'static str, u32> = BTreeMap::new();
    for case in 0..500 {
        let mut random = Random::for_case(16, case);
        let log = legal_log(&mut random);
        if log.records.is_empty() {
            continue;
        }
        let (mut store, records, last) = (opened(&log), &log.records, log.header.last);
        let kept = keep_some(&mut random, &mut store, &log);
        for t in times(&mut random, &log, 30) {
            let at = format!("case {case}, time {t}");
            let between = |held: u64| records_between(records, held, t);
            let [earlier, later] = nearest(&kept, last, t);
            let (side, used) = if between(later) < between(earlier) {
                (Side::Later, later)
            } else {
                (Side::Earlier, earlier)
            };
            assert!([0, last].iter().chain(&kept).all(|&held| between(held) >= between(used)), "{at}");

            let (rows, answer) = table(&store, t);
            assert_eq!((answer.side, answer.requests_between), (side, between(used)), "{at}");
            assert_eq!(common::rows(&rows), timeslice(records, t), "{at}");
            let view = store.view(t).unwrap();
            assert_eq!((view.side, view.requests_between), (side, between(used)), "{at}");
            assert_eq!(time_of(&store, &view), used, "{at}");
            assert!(view.place != Place::Current || !kept.contains(&last), "{at}");
            let outset_rows: Vec<u8> = timeslice(records, used).iter().flat_map(Row::bytes).collect();
            assert_eq!(store.view_bytes(&view), outset_rows, "{at}");
            for name in shown(&store, records, &kept, t) {
                *met.entry(name).or_default() += 1;
            }
        }
    }
    assert_eq!(met.len(), 21, "{met:?}");
    assert!(met.values().all(|often| *often >= 20), "{met:?}");
}
