//! Keeping more is never worse (02, wish 9) over generated logs: every set of a few files beside every part of it, in stores
//! of one log that have marks, a capacity and a past of their own.

mod common;

use common::generated::times;
use common::parts::{of_set, sets_and_parts};
use common::{records_between, table, STRANGE};
use oracle::generate::{legal_log, Log};
use oracle::layout::{Record, INSERTION};
use oracle::log::{log_bytes, log_length};
use oracle::mark::MARKS;
use oracle::outset::{Entry, Place};
use oracle::position::position;
use oracle::random::Random;
use oracle::store::{Lengths, Memory, Store, TableAnswer, View};
use oracle::table::table_length;
use oracle::tree::word_count;
use std::collections::{BTreeMap, BTreeSet};

/// How a store comes to hold its files.
#[derive(Clone, Copy, PartialEq)]
enum Way {
    Opened,
    /// more were kept, and then dropped
    Dropped,
    /// from a fresh store on, and a file is kept as soon as its time is reached
    Appended,
}

/// Strange memory for the log, with space for at least so many files.
fn lent(random: &mut Random, log: &Log, files: usize) -> Memory {
    let n = log.header.records;
    let area = table_length(log.header.row_limit);
    let [entries, areas] = [(); 2].map(|()| random.from(files as u64, 18) as usize);
    let lengths = Lengths {
        log: log_length(n) + random.place(60),
        index: word_count(log.header.order, log.header.page_size, n) + random.place(9),
        table: area + random.place(20),
        catalogue: entries,
        areas: areas * area + random.place(area),
    };
    Memory::filled(lengths, STRANGE)
}

/// Makes the requests of the log, and keeps each file once its time is reached.
fn append(random: &mut Random, store: &mut Store, log: &Log, kept: &[u64]) {
    for request in log.records.chunk_by(|record, next| record.time == next.time) {
        let Record { kind, time, article, count, .. } = *request.last().unwrap();
        match request.len() {
            1 if kind == INSERTION => store.insert(time, article, count).unwrap(),
            1 => store.delete(time, article).unwrap(),
            _ => store.update(time, article, count).unwrap(),
        }
        keep(random, store, kept);
    }
}

/// Keeps those of the times that are reached and not kept yet, with any marks.
fn keep(random: &mut Random, store: &mut Store, times: &[u64]) {
    for &t in times {
        if t <= store.numbers.last && !store.is_kept(t) {
            store.keep(t, random.pick(&MARKS)).unwrap();
        }
    }
}

/// A store of this log that holds these of the files.
fn holding(random: &mut Random, log: &Log, way: Way, files: &[u64], kept: &[u64]) -> Store {
    let at_first = if way == Way::Dropped { files } else { kept };
    let mut store = Store::over(lent(random, log, at_first.len()));
    let bytes = log_bytes(&log.header, &log.records);
    if way == Way::Appended {
        store.fresh(log.header.order, log.header.page_size, log.header.row_limit).unwrap();
        append(random, &mut store, log, kept);
    } else {
        store.memory.log[..bytes.len()].copy_from_slice(&bytes);
        store.open().unwrap();
        keep(random, &mut store, at_first);
    }
    let others = at_first.iter().filter(|t| !kept.contains(t));
    others.for_each(|&t| store.drop_file(t).unwrap());
    // "One log means the same header and the same n records, byte for byte."
    assert!(store.memory.log[..bytes.len()] == bytes);
    assert_eq!(store.kept().iter().map(|entry| entry.time).collect::<Vec<_>>(), kept);
    store
}

/// Times at each request, at each file and beside them, at most so many of these; both ends; and times after the last.
fn wanted(random: &mut Random, log: &Log, files: &[u64], most: usize) -> Vec<u64> {
    let at = log.records.iter().map(|record| record.time).chain(files.iter().copied());
    let beside: BTreeSet<u64> = at.flat_map(|t| [t - 1, t, t.saturating_add(1)]).collect();
    let mut wanted: Vec<u64> = beside.into_iter().collect();
    random.shuffle(&mut wanted);
    wanted.truncate(most);
    let last = log.header.last;
    wanted.extend([0, last, last.saturating_add(1), last.saturating_add(1 << 20), u64::MAX]);
    wanted
}

/// Wrong ways to choose an outset, of which the requests are then reported.
const WRONG: [&str; 4] = ["the first file at or before", "the last file at or after", "by time", "by pages"];

fn wrong_reports(log: &Log, kept: &[u64], t: u64) -> [u32; 4] {
    let last = log.header.last;
    let t = t.min(last);
    let (mut before, mut after) = (vec![0], vec![]);
    before.extend(kept.iter().filter(|held| **held <= t));
    after.extend(kept.iter().filter(|held| **held >= t));
    after.push(last);
    let (earlier, later) = (before[before.len() - 1], after[0]);
    let first = before[1.min(before.len() - 1)];
    let farthest = after[after.len().max(2) - 2];
    let page = |time| position(log.header.page_size, &log.records, time).page;
    let by_time = if later - t < t - earlier { later } else { earlier };
    let by_pages = if page(later) - page(t) < page(t) - page(earlier) { later } else { earlier };
    let between = |held| records_between(&log.records, held, t);
    [
        between(first).min(between(later)),
        between(earlier).min(between(farthest)),
        between(by_time),
        between(by_pages),
    ]
}

/// One store, and what it answers for each wanted time.
struct Answered {
    way: Way,
    capacity: usize,
    /// times and marks
    files: Vec<(u64, u32)>,
    answers: Vec<(TableAnswer, View)>,
    wrong: Vec<[u32; 4]>,
}

fn answered(random: &mut Random, log: &Log, files: &[u64], kept: &[u64], asked: &[u64]) -> Answered {
    // appending takes long where a log is long
    let appended = if log.records.len() <= 30 { Way::Appended } else { Way::Opened };
    let way = random.pick(&[Way::Opened, Way::Opened, Way::Dropped, Way::Dropped, appended]);
    let store = holding(random, log, way, files, kept);
    Answered {
        way,
        capacity: store.capacity(),
        files: store.kept().iter().map(|&Entry { time, mark, .. }| (time, mark)).collect(),
        answers: asked.iter().map(|&t| (table(&store, t).1, store.view(t).unwrap())).collect(),
        wrong: asked.iter().map(|&t| wrong_reports(log, kept, t)).collect(),
    }
}

/// What a store and one that holds a part of its files show, each by its name.
fn shown_by(more: &Answered, part: &Answered) -> Vec<&'static str> {
    let all = [
        ("a smaller capacity", more.capacity < part.capacity),
        ("another mark", part.files.iter().any(|file| !more.files.contains(file))),
        ("one appended, one not", (more.way == Way::Appended) != (part.way == Way::Appended)),
    ];
    names(&all)
}

/// What their views for one time show.
fn shown_at(more: &View, part: &View) -> Vec<&'static str> {
    let (between, of_part) = (more.requests_between, part.requests_between);
    let same = between == of_part && between > 0;
    let all = [
        ("fewer", between < of_part),
        ("fewer, and still some", between < of_part && between > 0),
        ("the same", same),
        ("the same, from the other side", same && more.side != part.side),
        ("a file for the current table", part.place == Place::Current && more.place != Place::Current),
    ];
    names(&all)
}

fn names(all: &[(&'static str, bool)]) -> Vec<&'static str> {
    all.iter().filter(|(_, met)| *met).map(|(name, _)| *name).collect()
}

/// Compares every set of some files with every part of it: what is shown, and which wrong ways are found out.
fn compare(number: u64) -> Vec<&'static str> {
    let mut random = Random::for_case(91, number);
    let log = legal_log(&mut random);
    // fewer files and times where a log is long, for the sake of time
    let (most_files, most_times) = match log.records.len() {
        0 => return vec![],
        1..=30 => (6, usize::MAX),
        31..=150 => (5, 12),
        _ => (3, 6),
    };
    let mut files: Vec<u64> = times(&mut random, &log, 9).into_iter().filter(|t| *t > 0).collect();
    while files.len() > most_files {
        files.remove(random.place(files.len()));
    }
    let asked = wanted(&mut random, &log, &files, most_times);
    let stores: Vec<Answered> = (0..1 << files.len())
        .map(|set| answered(&mut random, &log, &files, &of_set(&files, set), &asked))
        .collect();
    let mut met = Vec::new();
    for (set, part) in sets_and_parts(files.len()) {
        let (more, part) = (&stores[set], &stores[part]);
        met.extend(shown_by(more, part));
        for (i, &t) in asked.iter().enumerate() {
            let at = format!("case {number}, {:?} and {:?}, time {t}", more.files, part.files);
            let [(table, view), (table_of_part, view_of_part)] = [more, part].map(|store| store.answers[i]);
            assert!(table.requests_between <= table_of_part.requests_between, "table: {at}");
            assert!(view.requests_between <= view_of_part.requests_between, "view: {at}");
            met.extend(shown_at(&view, &view_of_part));
            met.extend((t > log.header.last).then_some("after the last request"));
            met.extend((0..4).filter(|&way| more.wrong[i][way] > part.wrong[i][way]).map(|way| WRONG[way]));
        }
    }
    met
}

#[test]
fn more_files_report_no_more_requests() {
    let mut met: BTreeMap<&str, u32> = BTreeMap::new();
    for number in 0..150 {
        compare(number).into_iter().for_each(|name| *met.entry(name).or_default() += 1);
    }
    assert_eq!(met.len(), 3 + 5 + 1 + WRONG.len(), "{met:?}");
    assert!(met.values().all(|often| *often >= 100), "{met:?}");
}
