//! Times after the last request (02, wish 2) over generated logs with count files: every answer is that at the last time and,
//! stated a second time, that of all records.

mod common;

use common::generated::{keep_some, opened, times};
use common::set::by_the_set;
use common::units::on_hand;
use common::{net_change, position, refused, rows, table};
use oracle::generate::legal_log;
use oracle::layout::Record;
use oracle::outset::{Place, Side};
use oracle::random::Random;
use oracle::store::Store;
use oracle::table::{table_bytes, table_length};
use std::collections::{BTreeMap, BTreeSet};

/// Times after the last request; none where it is at the last time there is.
fn late_times(random: &mut Random, last: u64) -> BTreeSet<u64> {
    let next = last.saturating_add(1);
    let far = random.from(last, u64::MAX);
    let all = [next, last.saturating_add(random.from(2, 9)), far, 1 << 63, u64::MAX - 1, u64::MAX];
    all.into_iter().filter(|&t| t > last).collect()
}

/// Page and requests of all records, counted by no position.
fn all_records(page_size: u16, records: &[Record]) -> (u32, u32) {
    (records.len().saturating_sub(1) as u32 / page_size as u32, records.len() as u32)
}

/// What is true of a late time beside that of the last one.
fn check(store: &Store, kept: &BTreeSet<u64>, records: &[Record], t: u64, at: &str) {
    let (last, row_limit) = (store.numbers.last, store.numbers.row_limit);
    assert_eq!(store.position(t), store.position(last), "{at}");
    assert_eq!(position(store, t), all_records(store.numbers.page_size, records), "{at}");

    let [mut late, mut at_last] = [(); 2].map(|()| vec![7; table_length(row_limit)]);
    assert_eq!(store.table(t, &mut late), store.table(last, &mut at_last), "{at}");
    assert_eq!(late, at_last, "{at}");
    assert_eq!(late, table_bytes(row_limit, &by_the_set(records, t)), "{at}");
    assert_eq!(rows(&table(store, t).0), by_the_set(records, t), "{at}");

    // no request is between; the file of the last time is the earlier one
    let side = if records.is_empty() || kept.contains(&last) { Side::Earlier } else { Side::Later };
    let (_, answer) = table(store, t);
    assert_eq!((answer.side, answer.requests_between), (side, 0), "{at}");
    let view = store.view(t).unwrap();
    assert_eq!(store.view(last), Ok(view), "{at}");
    assert_eq!((view.side, view.requests_between), (side, 0), "{at}");
    let place = match (kept.len(), side) {
        _ if records.is_empty() => Place::Empty,
        (files, Side::Earlier) => Place::File(files - 1),
        (_, Side::Later) => Place::Current,
    };
    assert_eq!(view.place, place, "{at}");
    assert_eq!(late[..view.length], *store.view_bytes(&view), "{at}");

    assert_eq!(store.units(t), store.units(last), "{at}");
    assert_eq!(store.units(t).unwrap() as i128, on_hand(records, t), "{at}");
}

/// What is true of two times, one of them late or both.
fn check_pair(store: &Store, records: &[Record], a: u64, b: u64, at: &str) {
    let last = store.numbers.last;
    let (as_a, as_b) = (a.min(last), b.min(last));
    assert_eq!(store.units_between(a, b), store.units_between(as_a, as_b), "{at}");
    let right = on_hand(records, b) - on_hand(records, a);
    assert_eq!(store.units_between(a, b).unwrap() as i128, right, "{at}");
    let list = net_change(store, a, b);
    assert_eq!(list, net_change(store, as_a, as_b), "{at}");
    assert_eq!(list.is_empty(), by_the_set(records, a) == by_the_set(records, b), "{at}");
}

#[test]
fn a_late_time_is_answered_as_the_last_one() {
    let mut met: BTreeMap<&str, u32> = BTreeMap::new();
    for case in 0..500 {
        let mut random = Random::for_case(18, case);
        let log = legal_log(&mut random);
        let (mut store, records, last) = (opened(&log), &log.records, log.header.last);
        let late = late_times(&mut random, last);
        let mut kept = BTreeSet::new();
        if !records.is_empty() {
            kept = keep_some(&mut random, &mut store, &log);
        }
        if random.percent(30) && store.keep(last, 0).is_ok() {
            kept.insert(last);
        }
        let before = store.clone();
        for &t in &late {
            check(&store, &kept, records, t, &format!("case {case}, time {t}"));
        }
        let earlier = if records.is_empty() { BTreeSet::from([0]) } else { times(&mut random, &log, 2) };
        for (&t, &other) in late.iter().flat_map(|t| earlier.iter().chain(&late).map(move |other| (t, other)))
        {
            let at = format!("case {case}, {t} and {other}");
            check_pair(&store, records, t, other, &at);
            check_pair(&store, records, other, t, &at);
        }
        let full = store.numbers.files as usize == store.capacity();
        let shown = [
            ("no late time", late.is_empty()),
            ("no record", records.is_empty()),
            ("a file of the last time", kept.contains(&last)),
            ("files, none of the last time", !kept.is_empty() && !kept.contains(&last)),
            ("no file", kept.is_empty()),
            ("the second half of all times", last >= 1 << 63 && !late.is_empty()),
            ("a keep with no space", full && !late.is_empty()),
        ];
        shown.iter().filter(|(_, met)| *met).for_each(|(name, _)| *met.entry(*name).or_default() += 1);
        // a keep of the same times is refused and changes nothing, whether or not there is space
        late.iter().for_each(|&t| assert_eq!(refused(store.keep(t, 0)), 12, "case {case}, time {t}"));
        assert_eq!(store, before, "case {case}");
    }
    assert_eq!(met.len(), 7, "{met:?}");
    assert!(met.values().all(|often| *often >= 10), "{met:?}");
}
