//! The order of deletions (02, wish 9) over generated logs with count files of all marks: lists of drops and marked deletions,
//! refused ones among them, made in other orders, by other calls, and with queries or requests between. All of the store is
//! compared, with strange bytes wherever no call has written.

mod common;

use common::deletions::{after, delete, gone, left};
use common::generated::times;
use common::{net_change, position, table};
use oracle::calls::{deletions, Call};
use oracle::generate::{legal_log, Log};
use oracle::log::log_length;
use oracle::mark::{MARKS, TO_DELETE};
use oracle::outset::Entry;
use oracle::random::Random;
use oracle::store::{Lengths, Memory, Store};
use oracle::table::table_length;
use oracle::tree::word_count;
use std::collections::{BTreeMap, BTreeSet};

/// Requests that the lent memory has space for.
const MORE: u32 = 6;

/// Memory for the log and a few requests more, with random bytes in the areas. An entry past the capacity looks like a count
/// file: no deletion may look at it.
fn lent(random: &mut Random, log: &Log) -> Memory {
    let n = log.header.records;
    let area = table_length(log.header.row_limit);
    let [entries, areas] = [(); 2].map(|()| random.pick(&[0, 2, 5, 9, 15, 16, 17, 18]));
    let lengths = Lengths {
        log: log_length(n + 2 * MORE),
        index: word_count(log.header.order, log.header.page_size, n + 2 * MORE),
        table: area,
        catalogue: entries,
        areas: areas * area + random.place(area),
    };
    let mut memory = Memory::filled(lengths, 0xA5);
    memory.log[..log_length(n)].copy_from_slice(&log.bytes()[..log_length(n)]);
    memory.areas = random.bytes(lengths.areas);
    for entry in &mut memory.catalogue {
        *entry = Entry { time: random.from(1, log.header.last.max(1)), rows: 1, mark: random.pick(&MARKS) };
    }
    memory
}

/// A store with files of any marks, mostly of few. Some more may have been kept and dropped, so that the areas behind the
/// files are zero or strange.
fn state(random: &mut Random) -> (Log, Store) {
    let log = legal_log(random);
    let mut store = Store::over(lent(random, &log));
    store.open().unwrap();
    if log.records.is_empty() {
        return (log, store);
    }
    let marks: &[u32] = random.pick(&[&MARKS, &MARKS, &[0, 5, 5], &[5, 7], &[7, 7, 0], &[5], &[0]]);
    let mut kept: Vec<u64> = times(random, &log, 20).into_iter().collect();
    random.shuffle(&mut kept);
    // refused at time 0 and where the catalogue is full
    kept.retain(|&t| store.keep(t, random.pick(marks)).is_ok());
    if random.percent(40) {
        let many = random.place(kept.len() + 1);
        kept[..many].iter().for_each(|&t| store.drop_file(t).unwrap());
    }
    (log, store)
}

/// What a list of deletions shows, each by its name.
fn shown(before: &Store, calls: &[Call]) -> Vec<&'static str> {
    let mut store = before.clone();
    let (mut answers, mut runs) = (Vec::new(), false);
    for &call in calls {
        let goes = |entry: &Entry| call == Call::DropMarked(entry.mark) && entry.mark > 0;
        runs |= store.kept().windows(2).any(|files| goes(&files[0]) && goes(&files[1]));
        answers.push((call, delete(&mut store, call)));
    }
    let was_kept = |call| before.kept().iter().any(|entry| call == Call::Drop(entry.time));
    let ends =
        |question| answers.iter().filter(move |answer| answer.1.is_err_and(|no| no.question == question));
    let (files, stay) = (before.numbers.files, store.numbers.files);
    let all = [
        ("neighbours go by their mark", runs),
        ("a drop too late", ends(16).any(|answer| was_kept(answer.0))),
        ("a drop of no file", ends(16).any(|answer| !was_kept(answer.0))),
        ("a wrong mark", ends(18).count() > 0),
        ("a mark that no file has left", answers.iter().any(|answer| answer.1 == Ok(0))),
        (
            "three or more calls delete",
            answers.iter().filter(|answer| answer.1.is_ok_and(|many| many > 0)).count() > 2,
        ),
        ("all go", stay == 0 && files > 2),
        ("some go", stay > 2 && files > stay + 2),
        ("none go", stay == files && files > 2),
        ("of a full catalogue", files as usize == before.capacity() && stay < files),
        ("entries past the capacity", before.memory.catalogue.len() > before.capacity() && stay < files),
        ("unused areas", before.capacity() > files as usize && stay < files),
    ];
    all.into_iter().filter(|(_, met)| *met).map(|(name, _)| name).collect()
}

#[test]
fn in_any_order() {
    let mut met: BTreeMap<&str, u32> = BTreeMap::new();
    for number in 0..600 {
        let mut random = Random::for_case(92, number);
        let (_, before) = state(&mut random);
        let mut calls = deletions(&mut random, &before);
        let gone = gone(&before, &calls);
        let expected = left(&before, &gone);
        for _ in 0..6 {
            let mut store = before.clone();
            let went: u32 = calls.iter().filter_map(|&call| delete(&mut store, call).ok()).sum();
            assert_eq!(store, expected, "case {number}, {calls:?}");
            assert_eq!(went as usize, gone.len(), "case {number}, {calls:?}");
            shown(&before, &calls).into_iter().for_each(|name| *met.entry(name).or_default() += 1);
            random.shuffle(&mut calls);
        }
        assert!(expected.audit(), "case {number}");
    }
    assert_eq!(met.len(), 12, "{met:?}");
    assert!(met.values().all(|often| *often >= 50), "{met:?}");
}

/// Drops of these files, and a mark in place of some of them where all with it go; then any calls again.
fn calls_for(random: &mut Random, before: &Store, gone: &BTreeSet<u64>) -> Vec<Call> {
    let mut calls: Vec<Call> = gone.iter().map(|&t| Call::Drop(t)).collect();
    for mark in TO_DELETE {
        let marked: Vec<u64> =
            before.kept().iter().filter(|entry| entry.mark == mark).map(|entry| entry.time).collect();
        if marked.iter().all(|t| gone.contains(t)) && random.percent(70) {
            calls.retain(|call| !marked.iter().any(|&t| *call == Call::Drop(t)) || random.percent(25));
            calls.push(Call::DropMarked(mark));
        }
    }
    let again = random.place(calls.len() + 1);
    calls.extend_from_within(..again);
    random.shuffle(&mut calls);
    calls
}

/// The same files go by drops one by one, by their marks, or by both.
#[test]
fn by_other_calls() {
    let mut met = [0; 2];
    for number in 0..500 {
        let mut random = Random::for_case(93, number);
        let (_, before) = state(&mut random);
        // whole marks, so that there is another way, and some files beside
        let marks: &[u32] = random.pick(&[&[], &[5], &[7], &[5, 7]]);
        let goes = |entry: &&Entry| marks.contains(&entry.mark) || random.percent(30);
        let gone: BTreeSet<u64> = before.kept().iter().filter(goes).map(|entry| entry.time).collect();
        let expected = left(&before, &gone);
        for _ in 0..4 {
            let calls = calls_for(&mut random, &before, &gone);
            assert_eq!(after(&before, &calls), expected, "case {number}, {calls:?}");
            met[calls.iter().any(|call| matches!(call, Call::DropMarked(_))) as usize] += 1;
        }
        // and where another file goes too, the catalogue is another
        if let Some(other) = before.kept().iter().find(|entry| !gone.contains(&entry.time)) {
            let end = after(&expected, &[Call::Drop(other.time)]);
            assert_ne!(end.memory.catalogue, expected.memory.catalogue, "case {number}");
        }
    }
    assert!(met.iter().all(|often| *often >= 100), "{met:?}");
}

/// Position, table, view, net change, units and audit, asked between, leave the end as it is.
#[test]
fn with_queries_between() {
    for number in 0..100 {
        let mut random = Random::for_case(94, number);
        let (log, before) = state(&mut random);
        let calls = deletions(&mut random, &before);
        let mut store = before.clone();
        for &call in &calls {
            let [a, b] = [(); 2].map(|()| random.from(0, log.header.last.saturating_add(9)));
            position(&store, a);
            table(&store, a);
            net_change(&store, a, b);
            store.view(b).unwrap();
            store.units(a).unwrap();
            store.units_between(a, b).unwrap();
            assert!(store.audit(), "case {number}");
            let _ = delete(&mut store, call);
        }
        assert_eq!(store, left(&before, &gone(&before, &calls)), "case {number}, {calls:?}");
    }
}

/// Inserts, deletes and updates at rising times; the log has space for all of them.
fn appends(random: &mut Random, store: &Store) -> Vec<Call> {
    let (mut time, mut calls) = (store.numbers.last, vec![]);
    for _ in 0..random.from(0, MORE as u64) {
        time = time.saturating_add(random.from(1, 9));
        let live = store.rows_at(store.numbers.last);
        let present = if live.is_empty() { 0 } else { random.pick(&live).article };
        calls.push(match random.from(0, 3) {
            0 => Call::Delete(time, present),
            1 => Call::Update(time, present, random.next() as u32),
            _ => Call::Insert(time, random.next() as u32, random.next() as u32),
        });
    }
    calls
}

/// Makes both lists, each in its order, a call of the one or of the other at a time.
fn interleaved(random: &mut Random, before: &Store, deletions: &[Call], appends: &[Call]) -> Store {
    let mut store = before.clone();
    let (mut deletions, mut appends) = (deletions.iter(), appends.iter());
    while deletions.len() + appends.len() > 0 {
        let next = if random.percent(50) { deletions.next() } else { appends.next() };
        // some of either are refused
        let _ = match next.copied() {
            Some(Call::Insert(time, article, count)) => store.insert(time, article, count),
            Some(Call::Update(time, article, count)) => store.update(time, article, count),
            Some(Call::Delete(time, article)) => store.delete(time, article),
            Some(call) => delete(&mut store, call).map(drop),
            None => Ok(()),
        };
    }
    store
}

/// A request leaves catalogue and areas alone, so they end the same whenever the same times are then held; and with the
/// same requests between, all of the store does.
#[test]
fn with_requests_between() {
    let mut appended = 0;
    for number in 0..300 {
        let mut random = Random::for_case(95, number);
        let (_, before) = state(&mut random);
        let mut calls = deletions(&mut random, &before);
        let gone = gone(&before, &calls);
        let [requests, others] = [(); 2].map(|()| appends(&mut random, &before));
        let expected = left(&interleaved(&mut random, &before, &[], &requests), &gone);
        appended += expected.numbers.records - before.numbers.records;
        for _ in 0..3 {
            let end = interleaved(&mut random, &before, &calls, &requests);
            assert_eq!(end, expected, "case {number}, {calls:?}");
            let other = interleaved(&mut random, &before, &calls, &others);
            assert_eq!(other.memory.catalogue, expected.memory.catalogue, "case {number}, {calls:?}");
            assert_eq!(other.memory.areas, expected.memory.areas, "case {number}, {calls:?}");
            assert_eq!(other.numbers.files, expected.numbers.files, "case {number}, {calls:?}");
            random.shuffle(&mut calls);
        }
    }
    assert!(appended > 300, "{appended}");
}
