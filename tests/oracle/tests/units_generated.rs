//! Units on hand (02, wish 1) over generated logs with count files: the log's counts inserted less those deleted, the rows as
//! the table call writes them, and the entries of the net change between.

mod common;

use common::generated::{keep_some, opened, times};
use common::units::{on_hand, shown_at, shown_between, told_apart, wrong_differences, wrong_totals, NAMES};
use common::{net_change, table};
use oracle::generate::legal_log;
use oracle::layout::{Record, INSERTION};
use oracle::random::Random;
use oracle::store::Store;
use std::collections::BTreeMap;

/// The counts of the rows that the table call writes.
fn rows_added_up(store: &Store, t: u64) -> i128 {
    table(store, t).0.iter().map(|&(_, count)| count as i128).sum()
}

/// The counts that the net change from a to b inserts less those it deletes.
fn entries_added_up(store: &Store, a: u64, b: u64) -> i128 {
    let signed = |(kind, _, count)| if kind == INSERTION { count as i128 } else { -(count as i128) };
    net_change(store, a, b).into_iter().map(signed).sum()
}

/// Two request times, of which the totals agree.
fn agreeing(random: &mut Random, records: &[Record]) -> Option<[u64; 2]> {
    let a = records[random.place(records.len())].time;
    let total = on_hand(records, a);
    let others = records.iter().map(|record| record.time).filter(|&t| t != a && on_hand(records, t) == total);
    let others: Vec<u64> = others.take(30).collect();
    (!others.is_empty()).then(|| [a, random.pick(&others)])
}

#[test]
fn units_are_those_of_the_log_and_of_the_rows() {
    let mut met: BTreeMap<(&'static str, &'static str), u32> = BTreeMap::new();
    for case in 0..500 {
        let mut random = Random::for_case(17, case);
        let log = legal_log(&mut random);
        if log.records.is_empty() {
            continue;
        }
        let (mut store, records) = (opened(&log), &log.records);
        keep_some(&mut random, &mut store, &log);
        let before = store.clone();
        let asked: Vec<u64> = times(&mut random, &log, 12).into_iter().collect();
        let mut shown = Vec::new();
        for &t in &asked {
            let at = format!("case {case}, time {t}");
            let units = store.units(t).unwrap() as i128;
            assert_eq!(units, on_hand(records, t), "{at}");
            assert_eq!(units, rows_added_up(&store, t), "{at}");
            let told = told_apart(units, wrong_totals(records, t));
            shown.extend(shown_at(records, t).into_iter().chain(told).map(|name| ("at", name)));
        }
        let mut pairs: Vec<[u64; 2]> = (0..12).map(|_| [random.pick(&asked), random.pick(&asked)]).collect();
        pairs.extend((0..2).filter_map(|_| agreeing(&mut random, records)));
        for [a, b] in pairs {
            let at = format!("case {case}, from {a} to {b}");
            let between = store.units_between(a, b).unwrap();
            assert_eq!(between as i128, on_hand(records, b) - on_hand(records, a), "{at}");
            assert_eq!(between as i128, entries_added_up(&store, a, b), "{at}");
            assert_eq!(store.units_between(b, a), Ok(-between), "{at}");
            let told = told_apart(between as i128, wrong_differences(records, a, b));
            shown.extend(shown_between(records, a, b).into_iter().chain(told).map(|name| ("between", name)));
        }
        assert_eq!(store, before, "case {case}");
        shown.into_iter().for_each(|name| *met.entry(name).or_default() += 1);
    }
    assert_eq!(met.len(), NAMES, "{met:?}");
    assert!(met.values().all(|often| *often >= 20), "{met:?}");
}
