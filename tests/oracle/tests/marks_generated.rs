//! Marked deletions (02, wish 3) over generated logs with count files of all marks: stated a second time by drops one by one
//! and a third time by a store that never kept those files; and that no answer about the log differs.

mod common;

use common::generated::{opened, times};
use common::set::by_the_set;
use common::units::on_hand;
use common::{net_change, position, rows, table, STRANGE};
use oracle::generate::{legal_log, Log};
use oracle::mark::{MARKS, TO_DELETE};
use oracle::outset::Entry;
use oracle::random::Random;
use oracle::store::Store;
use oracle::table::table_length;
use std::collections::{BTreeMap, BTreeSet};

/// Times and marks, in the order in which they are kept.
type Files = Vec<(u64, u32)>;

/// The log opened, with a stranger's bytes in the areas.
fn with_strange_areas(log: &Log) -> Store {
    let mut store = opened(log);
    store.memory.areas.fill(STRANGE);
    store
}

fn with_files(log: &Log, files: &[(u64, u32)]) -> Store {
    let mut store = with_strange_areas(log);
    files.iter().for_each(|&(t, mark)| store.keep(t, mark).unwrap());
    store
}

/// Up to 16 files at or beside requests, in any order, mostly of few marks.
fn some_files(random: &mut Random, log: &Log) -> Files {
    if log.records.is_empty() {
        return vec![];
    }
    let marks: &[u32] = random.pick(&[&MARKS, &[0, 5], &[5, 7], &[7, 7, 5], &[5], &[7], &[0]]);
    let many = random.from(0, 15);
    let kept = times(random, log, many).into_iter().filter(|t| *t > 0);
    let mut files: Files = kept.map(|t| (t, random.pick(marks))).collect();
    random.shuffle(&mut files);
    files
}

/// A log with its files, and a store that has kept them.
fn case(random: &mut Random) -> (Log, Files, Store) {
    let log = legal_log(random);
    let files = some_files(random, &log);
    let store = with_files(&log, &files);
    (log, files, store)
}

/// Numbers and memory that a marked deletion leaves: each file that goes dropped by its time, in any order.
fn dropped_one_by_one(random: &mut Random, store: &Store, mark: u32) -> Store {
    let mut store = store.clone();
    let mut gone: Vec<u64> =
        store.kept().iter().filter(|entry| entry.mark == mark).map(|entry| entry.time).collect();
    random.shuffle(&mut gone);
    gone.iter().for_each(|&t| store.drop_file(t).unwrap());
    store
}

/// And again, without a drop: only the others were ever kept, and the areas of as many files as there were are zero
/// behind them.
fn never_kept(log: &Log, files: &[(u64, u32)], mark: u32) -> Store {
    let left: Files = files.iter().copied().filter(|file| file.1 != mark).collect();
    let mut store = with_files(log, &left);
    let area = table_length(log.header.row_limit);
    store.memory.areas[area * left.len()..area * files.len()].fill(0);
    store
}

#[test]
fn a_marked_deletion_is_drops_one_by_one() {
    let mut met: BTreeMap<&str, u32> = BTreeMap::new();
    for number in 0..600 {
        let mut random = Random::for_case(33, number);
        let (log, files, before) = case(&mut random);
        for mark in TO_DELETE {
            let mut store = before.clone();
            let gone = files.iter().filter(|file| file.1 == mark).count();
            assert_eq!(store.drop_marked(mark), Ok(gone as u32), "case {number}");
            assert_eq!(store, dropped_one_by_one(&mut random, &before, mark), "case {number}, {mark}");
            assert_eq!(store, never_kept(&log, &files, mark), "case {number}, {mark}");
            assert!(store.audit(), "case {number}, {mark}");

            let by_time: BTreeSet<_> = files.iter().copied().collect();
            let left: Files = by_time.iter().copied().filter(|file| file.1 != mark).collect();
            let kept: Files = store.kept().iter().map(|entry| (entry.time, entry.mark)).collect();
            assert_eq!(kept, left, "case {number}, {mark}");
            let neighbours =
                before.kept().windows(2).any(|pair| pair[0].mark == mark && pair[1].mark == mark);
            let shown = [
                ("none", gone == 0 && !files.is_empty()),
                ("one", gone == 1),
                ("neighbours", neighbours),
                ("all of several", gone == files.len() && gone > 1),
                ("some of many", gone > 1 && files.len() > gone + 3),
                ("no file", files.is_empty()),
            ];
            shown.iter().filter(|(_, met)| *met).for_each(|(name, _)| *met.entry(*name).or_default() += 1);
            if gone == 0 {
                assert_eq!(store, before, "case {number}, {mark}");
            }
        }
    }
    assert_eq!(met.len(), 6, "{met:?}");
    assert!(met.values().all(|often| *often >= 20), "{met:?}");
}

/// "No table may differ because a marked file has gone", nor any other answer about the log.
#[test]
fn no_answer_about_the_log_differs() {
    for number in 0..250 {
        let mut random = Random::for_case(34, number);
        let (log, files, before) = case(&mut random);
        let mut after = before.clone();
        after.drop_marked(random.pick(&TO_DELETE)).unwrap();
        let mut asked = BTreeSet::from([0, log.header.last, log.header.last.saturating_add(1), u64::MAX]);
        if !log.records.is_empty() {
            asked.extend(times(&mut random, &log, 5));
        }
        asked.extend(files.iter().take(4).map(|file| file.0));
        for &t in &asked {
            let at = format!("case {number}, time {t}");
            assert_eq!(table(&before, t).0, table(&after, t).0, "{at}");
            assert_eq!(rows(&table(&after, t).0), by_the_set(&log.records, t), "{at}");
            assert_eq!(position(&before, t), position(&after, t), "{at}");
            assert_eq!(before.units(t), after.units(t), "{at}");
            assert_eq!(after.units(t).unwrap() as i128, on_hand(&log.records, t), "{at}");
        }
        let asked: Vec<u64> = asked.into_iter().collect();
        for _ in 0..6 {
            let (a, b) = (random.pick(&asked), random.pick(&asked));
            assert_eq!(net_change(&before, a, b), net_change(&after, a, b), "case {number}, {a} to {b}");
            assert_eq!(before.units_between(a, b), after.units_between(a, b), "case {number}, {a} to {b}");
        }
    }
}

/// The same times kept with other marks: everything is answered alike, the outset included, and the stores differ in
/// their marks alone.
#[test]
fn marks_decide_nothing_else() {
    for number in 0..250 {
        let mut random = Random::for_case(35, number);
        let (log, files, store) = case(&mut random);
        let remarked: Files = files.iter().map(|&(t, _)| (t, random.pick(&MARKS))).collect();
        let other = with_files(&log, &remarked);
        let without = |store: &Store| {
            let mut store = store.clone();
            store.memory.catalogue.iter_mut().for_each(|entry| entry.mark = 0);
            store
        };
        assert_eq!(without(&store), without(&other), "case {number}");
        assert!(other.audit());
        if log.records.is_empty() {
            continue;
        }
        for t in times(&mut random, &log, 12) {
            assert_eq!(store.view(t), other.view(t), "case {number}, time {t}");
            assert_eq!(table(&store, t), table(&other, t), "case {number}, time {t}");
        }
    }
}

/// The audit, asked about one mark that is changed: yes exactly for a right one in a used entry, and for 0 elsewhere.
#[test]
fn one_mark_changed() {
    let mut met = [0; 2];
    for number in 0..600 {
        let mut random = Random::for_case(36, number);
        let (_, files, mut store) = case(&mut random);
        let place = random.place(store.memory.catalogue.len());
        let mark = random.pick(&[0, 5, 7, 1, 4, 6, 5 + 256, 7 << 8, 5 << 24, 7 | 1 << 31, u32::MAX]);
        store.memory.catalogue[place].mark = mark;
        let right = if place < files.len() { [0, 5, 7].contains(&mark) } else { mark == 0 };
        assert_eq!(store.audit(), right, "case {number}, entry {place}, mark {mark}");
        met[right as usize] += 1;
        let unused = &store.memory.catalogue[files.len()..];
        assert!(unused.iter().all(|entry| (entry.time, entry.rows) == (0, 0)));
        // an opening leaves none of them
        store.open().unwrap();
        assert!(store.memory.catalogue.iter().all(|entry| *entry == Entry::default()));
        assert!(store.audit());
    }
    assert!(met.iter().all(|often| *often >= 100), "{met:?}");
}
