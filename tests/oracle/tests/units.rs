//! Units on hand (02, wish 1), by hand: totals, differences, and what wrong ways would answer for the same figures.

mod common;

use common::units::{told_apart, wrong_differences, wrong_totals};
use common::{by_hand, fresh, generated, net_change, opened, opened_with, table};
use oracle::generate::Log;
use oracle::layout::{Header, Record, DELETION, INSERTION};
use oracle::samples::{
    log_of, records_of, Request, Request::Insert, Request::Update, BY_HAND, EMPTIED_AGAIN, OVER_32_BITS,
    RAISED_AND_LOWERED,
};
use oracle::store::Store;
use std::collections::BTreeSet;

fn units<const N: usize>(store: &Store, times: [u64; N]) -> [u64; N] {
    times.map(|t| store.units(t).unwrap())
}

fn between(store: &Store, a: u64, b: u64) -> i64 {
    store.units_between(a, b).unwrap()
}

/// 7:50; 3:12 and 7:50; 3:12 and 7:44; 7:44; 7:44 and 9:5; 7:44 and 9:6.
#[test]
fn totals_of_the_log_by_hand() {
    let store = by_hand();
    assert_eq!(units(&store, [10, 20, 30, 40, 50, 60]), [50, 62, 56, 44, 49, 50]);
    assert_eq!(units(&store, [0, 9, 19, 29]), [0, 0, 50, 62]);
    assert_eq!(units(&store, [31, 39, 45, 59]), [56, 56, 44, 49]);
}

#[test]
fn an_empty_log_has_none() {
    for store in [fresh(3, 2, 4), opened(&log_of(2, 2, 1, &[]))] {
        assert_eq!((store.units(0), store.units_between(0, 0)), (Ok(0), Ok(0)));
    }
}

#[test]
fn differences_of_the_log_by_hand() {
    let store = by_hand();
    assert_eq!((between(&store, 20, 45), between(&store, 45, 20)), (-18, 18));
    assert_eq!((between(&store, 10, 20), between(&store, 20, 10)), (12, -12));
    assert_eq!((between(&store, 0, 60), between(&store, 60, 0)), (50, -50));
    assert_eq!((between(&store, 40, 59), between(&store, 59, 40)), (5, -5));
    assert_eq!((between(&store, 30, 35), between(&store, 9, 0)), (0, 0));
}

/// Back again is the same with the sign turned, nowhere is 0, and by way of a third time nothing is lost.
#[test]
fn differences_go_together() {
    let store = by_hand();
    for a in 0..=60 {
        assert_eq!(between(&store, a, a), 0);
        for b in 0..=60 {
            assert_eq!(between(&store, a, b), -between(&store, b, a));
            assert_eq!(between(&store, a, b), between(&store, a, 33) + between(&store, 33, b));
        }
    }
}

/// 50 at 10 and at 60, by other rows: "zero when both totals agree", and not where tables do.
#[test]
fn totals_agree_though_tables_differ() {
    let store = by_hand();
    assert_eq!((table(&store, 10).0, table(&store, 60).0), (vec![(7, 50)], vec![(7, 44), (9, 6)]));
    assert_eq!((between(&store, 10, 60), between(&store, 60, 10)), (0, 0));
    assert_eq!(net_change(&store, 10, 60).len(), 3);
}

/// A count moved from one article to another: no request leaves the total as it was, both together do.
#[test]
fn a_total_that_comes_back() {
    let store = opened_with(
        3,
        2,
        4,
        &[Insert(10, 1, 30), Insert(20, 2, 20), Update(30, 1, 30, 25), Update(40, 2, 20, 25)],
    );
    assert_eq!(units(&store, [20, 30, 40]), [50, 45, 50]);
    assert_eq!([between(&store, 20, 30), between(&store, 30, 40), between(&store, 20, 40)], [-5, 5, 0]);
}

#[test]
fn an_update_counts_once() {
    let store = opened_with(3, 2, 4, &RAISED_AND_LOWERED);
    assert_eq!(units(&store, [10, 20, 30, 40, 50, 60, 70]), [50, 80, 92, 32, 32, 37, 32]);
    // the update of 20 is split over two pages; before its time none of it is there
    assert_eq!(units(&store, [19, 39, 49]), [50, 92, 32]);
    assert_eq!([between(&store, 10, 20), between(&store, 30, 40), between(&store, 40, 50)], [30, -60, 0]);
    assert_eq!(between(&store, 10, 40), -18);
}

/// Where the header's count cuts an update in half, what is left of it is a deletion.
#[test]
fn half_an_update_is_a_deletion() {
    let records = records_of(&[Insert(10, 7, 50), Insert(20, 3, 12), Update(30, 7, 50, 44)]);
    let store = opened(&log_of(3, 2, 4, &records[..3]));
    assert_eq!(units(&store, [20, 30]), [62, 12]);
    assert_eq!(between(&store, 20, 30), -50);
}

#[test]
fn a_store_emptied_again() {
    let store = opened_with(3, 2, 4, &EMPTIED_AGAIN);
    assert_eq!(units(&store, [10, 20, 30, 40, 50]), [50, 44, 56, 12, 0]);
    assert_eq!((between(&store, 30, 50), between(&store, 5, 50)), (-56, 0));
}

/// Article 0 with count 0 is a row, and adds nothing.
#[test]
fn rows_of_count_0() {
    let store = opened_with(3, 2, 4, &[Insert(10, 0, 0), Insert(20, 5, 1)]);
    assert_eq!(units(&store, [10, 20]), [0, 1]);
    assert_eq!((between(&store, 0, 10), net_change(&store, 0, 10)), (0, vec![(INSERTION, 0, 0)]));
}

#[test]
fn totals_over_32_bits() {
    let store = opened_with(3, 2, 4, &OVER_32_BITS);
    assert_eq!(units(&store, [10, 20, 30, 40]), [4294967295, 8589934590, 12884901884, 12884901882]);
    assert_eq!((between(&store, 10, 30), between(&store, 30, 10)), (8589934589, -8589934589));
    assert_eq!((between(&store, 0, 40), between(&store, 40, 0)), (12884901882, -12884901882));
    // exactly 2^32, which is 0 by 32 bits
    let store = opened_with(3, 2, 4, &[Insert(10, 1, u32::MAX), Insert(20, 2, 1)]);
    assert_eq!(units(&store, [10, 20]), [4294967295, 4294967296]);
    assert_eq!((between(&store, 0, 20), between(&store, 20, 0)), (4294967296, -4294967296));
}

/// 1,024 rows of 2^32 - 1: 2^42 - 1024, the most that a table can have.
#[test]
fn the_largest_total() {
    let records: Vec<Record> =
        (0..1024).map(|k| Record::new(INSERTION, k, k as u64 + 1, 7 * k, u32::MAX)).collect();
    let header = Header::new(64, 64, 1024, 1024, 1024);
    let store = generated::opened(&Log { header, records, behind: vec![] });
    assert_eq!(units(&store, [1, 1024]), [4_294_967_295, 4_398_046_510_080]);
    assert_eq!(between(&store, 1024, 0), -4_398_046_510_080);
    assert_eq!(between(&store, 0, 1024), 4_398_046_510_080);
}

/// Insertions alone pass 2^42 in a long log; the total does not.
#[test]
fn a_long_log_of_few_rows() {
    let record = |k: u32| Record::new([INSERTION, DELETION][k as usize % 2], k, k as u64 + 1, 7, u32::MAX);
    let records: Vec<Record> = (0..2_729).map(record).collect();
    let header = Header::new(3, 2, 1, 2_729, 2_729);
    let store = generated::opened(&Log { header, records, behind: vec![] });
    assert_eq!(units(&store, [2_727, 2_728, 2_729]), [4294967295, 0, 4294967295]);
    assert_eq!((between(&store, 2_727, 2_728), between(&store, 1, 2_729)), (-4294967295, 0));
}

fn named<const N: usize>(
    of: impl Fn(u64) -> Vec<(&'static str, i128)>,
    times: [u64; N],
    name: &str,
) -> [i128; N] {
    times.map(|t| of(t).into_iter().find(|(other, _)| *other == name).unwrap().1)
}

/// Beside the right totals, 50 62 56 44 49 50 and 4294967295 8589934590 12884901884 12884901882.
#[test]
fn wrong_totals_by_hand() {
    let records = records_of(&BY_HAND);
    let wrong = |name| named(|t| wrong_totals(&records, t), [10, 20, 30, 40, 50, 60], name);
    assert_eq!(wrong("insertions only"), [50, 62, 106, 106, 111, 117]);
    assert_eq!(wrong("an update with both its counts"), [50, 62, 106, 94, 99, 105]);
    assert_eq!(wrong("an update taken twice"), [50, 62, 50, 38, 43, 45]);
    assert_eq!(wrong("the current total"), [50; 6]);
    assert_eq!(wrong("without the records at the time"), [0, 50, 62, 56, 44, 49]);
    let records = records_of(&OVER_32_BITS);
    let wrong = |name| named(|t| wrong_totals(&records, t), [10, 20, 30, 40], name);
    assert_eq!(wrong("a sum of 32 bits"), [4294967295, 4294967294, 4294967292, 4294967290]);
    assert_eq!(wrong("counts with a sign"), [-1, -2, -4, -6]);
}

/// Beside the right difference from 20, -62 -12 -18 -12, and from 40, -12884901882 -4294967292 0.
#[test]
fn wrong_differences_by_hand() {
    let records = records_of(&BY_HAND);
    let wrong = |name| named(|t| wrong_differences(&records, 20, t), [0, 10, 45, 60], name);
    assert_eq!(wrong("first less second"), [62, 12, 18, 12]);
    assert_eq!(wrong("without its sign"), [62, 12, 18, 12]);
    assert_eq!(wrong("0 where stock fell"), [0; 4]);
    assert_eq!(wrong("insertions only"), [-62, -12, 44, 55]);
    assert_eq!(wrong("the current total"), [0; 4]);
    let records = records_of(&OVER_32_BITS);
    let wrong = |name| named(|t| wrong_differences(&records, 40, t), [0, 20, 40], name);
    assert_eq!(wrong("a difference of 32 bits"), [6, 4, 0]);
}

/// The wrong ways that the store's answers at these times, and between any two of them, tell apart.
fn told_by(requests: &[Request], times: &[u64]) -> BTreeSet<&'static str> {
    let (store, records) = (opened_with(3, 2, 4, requests), records_of(requests));
    let mut told = BTreeSet::new();
    for &a in times {
        told.extend(told_apart(store.units(a).unwrap() as i128, wrong_totals(&records, a)));
        for &b in times {
            told.extend(told_apart(between(&store, a, b) as i128, wrong_differences(&records, a, b)));
        }
    }
    told
}

/// 01's log tells every wrong way apart but three, which show only in large counts.
#[test]
fn the_figures_tell_wrong_ways_apart() {
    let small = told_by(&BY_HAND, &[10, 20, 30, 40, 50, 60]);
    let large = told_by(&OVER_32_BITS, &[0, 10, 20, 30, 40]);
    let only_large = ["a difference of 32 bits", "a sum of 32 bits", "counts with a sign"];
    let names: BTreeSet<&str> = wrong_differences(&[], 0, 0).into_iter().map(|(name, _)| name).collect();
    assert_eq!(names.len(), 11);
    assert!(only_large.iter().all(|name| large.contains(name) && !small.contains(name)), "{large:?}");
    assert_eq!(small.into_iter().chain(only_large).collect::<BTreeSet<_>>(), names);
}
