//! The record number at 17 (02, wish 4): "the smallest k such that records 0 to k begin no legal log,
//! or n if only the header's last time is wrong".

mod common;

use common::legal::number_at_17;
use common::{memory_with, opened, wrong_record};
use oracle::generate::case;
use oracle::layout::{Header, Record, DELETION, HEADER_BYTES, INSERTION};
use oracle::log::{last_time, log_bytes, log_length, records};
use oracle::random::Random;
use oracle::samples::{log_of, records_of, Request};
use oracle::store::{Memory, Refusal, Store};
use std::collections::BTreeMap;
use Request::{Delete, Insert, Update};

/// Twelve records, no value there twice but where a deletion repeats it.
const LOG: [Request; 10] = [
    Insert(11, 501, 71),
    Insert(13, 502, 72),
    Insert(17, 503, 73),
    Update(19, 502, 72, 74), // records 3 and 4
    Delete(23, 501, 71),
    Insert(29, 504, 75),
    Update(31, 503, 73, 76), // records 7 and 8
    Delete(37, 504, 75),
    Insert(41, 505, 77),
    Delete(43, 502, 74),
];

/// After these a record is wrong whatever stands before it.
const WRONG_ALONE: [fn(&mut Record); 6] = [
    |record| record.length = 25,
    |record| record.length = 24 + 256,
    |record| record.kind = 1,
    |record| record.kind = 4,
    |record| record.id += 14,
    |record| record.time = 0,
];

fn changed(change: impl Fn(&mut Header, &mut [Record])) -> (Header, Vec<Record>) {
    let (mut header, mut records) = (Header::new(3, 2, 4, 12, 43), records_of(&LOG));
    change(&mut header, &mut records);
    (header, records)
}

/// The number for the changed log. The records before it are a legal log, those up to it are none.
fn number(change: impl Fn(&mut Header, &mut [Record])) -> u32 {
    let (header, records) = changed(change);
    let number = wrong_record(memory_with(&log_bytes(&header, &records)));
    let front = |many: u32| log_of(3, 2, header.row_limit, &records[..many as usize]);
    opened(&front(number));
    if number < header.records {
        assert_eq!(wrong_record(memory_with(&front(number + 1))), number);
    }
    number
}

fn accepted(change: impl Fn(&mut Header, &mut [Record])) {
    let (header, records) = changed(change);
    opened(&log_bytes(&header, &records));
}

#[test]
fn first_record() {
    accepted(|_, _| {});
    for wrong in WRONG_ALONE {
        assert_eq!(number(|_, records| wrong(&mut records[0])), 0);
    }
    assert_eq!(number(|_, records| records[0].kind = DELETION), 0);
}

#[test]
fn last_record() {
    for wrong in WRONG_ALONE {
        assert_eq!(number(|_, records| wrong(&mut records[11])), 11);
    }
    assert_eq!(number(|_, records| records[11].kind = INSERTION), 11);
    assert_eq!(number(|_, records| records[11].article = 506), 11);
    assert_eq!(number(|_, records| records[11].count = 78), 11);
    // the header's last time goes with it
    assert_eq!(number(|header, records| (header.last, records[11].time) = (41, 41)), 11);
    assert_eq!(number(|header, records| (header.last, records[11].time) = (39, 39)), 11);
}

#[test]
fn two_wrong_records() {
    for (first, second) in [(0, 11), (0, 9), (1, 10), (2, 11), (3, 8), (4, 9), (10, 11)] {
        for wrong in WRONG_ALONE {
            for wrong_too in WRONG_ALONE {
                let change = |_: &mut Header, records: &mut [Record]| {
                    wrong(&mut records[first]);
                    wrong_too(&mut records[second]);
                };
                assert_eq!(number(change), first as u32);
            }
        }
    }
}

/// The first record breaks a rule of rows or times, which only those before it show; the second is
/// wrong alone.
#[test]
fn a_rule_before_a_field() {
    let rules: [(u32, fn(&mut Header, &mut [Record])); 9] = [
        (2, |header, _| header.row_limit = 2),
        (4, |_, records| records[4].article = 506),
        (5, |_, records| records[5].count = 79),
        (5, |_, records| records[5].article = 507),
        (6, |_, records| records[6].article = 502),
        (6, |_, records| records[6].time = 23),
        (7, |_, records| records[7].time = 28),
        (8, |_, records| records[8].kind = DELETION),
        (9, |_, records| records[9].time = 31),
    ];
    for (first, rule) in rules {
        for wrong in WRONG_ALONE {
            let change = |header: &mut Header, records: &mut [Record]| {
                rule(header, records);
                wrong(&mut records[10]);
            };
            assert_eq!(number(rule), first);
            assert_eq!(number(change), first);
        }
    }
}

#[test]
fn wrong_record_and_wrong_last_time() {
    for k in 0..12 {
        for wrong in WRONG_ALONE {
            let change = |header: &mut Header, records: &mut [Record]| {
                header.last = 47;
                wrong(&mut records[k]);
            };
            assert_eq!(number(change), k as u32);
        }
    }
    assert_eq!(number(|header, _| (header.row_limit, header.last) = (1, 53)), 1);
}

#[test]
fn only_the_last_time_wrong() {
    for last in [0, 1, 41, 42, 44, 43 + 256, u64::MAX] {
        assert_eq!(number(|header, _| header.last = last), 12);
    }
    // the last record is legal at a later time too, so what is wrong is the header
    assert_eq!(number(|_, records| records[11].time = 59), 12);
}

#[test]
fn no_record_and_a_last_time() {
    for last in [1, 43, u64::MAX] {
        assert_eq!(wrong_record(memory_with(&Header::new(3, 2, 4, 0, last).bytes())), 0);
        // bytes of records behind it are none
        assert_eq!(number(|header, _| (header.records, header.last) = (0, last)), 0);
    }
    accepted(|header, _| (header.records, header.last) = (0, 0));
}

/// An insertion with another count is legal. Wrong is the deletion that repeats the true one.
#[test]
fn count_of_an_insertion() {
    assert_eq!(number(|_, records| records[0].count = 78), 5);
    assert_eq!(number(|_, records| records[6].count = 79), 9);
    // the deletion of an update
    assert_eq!(number(|_, records| records[1].count = 80), 3);
    assert_eq!(number(|_, records| records[2].count = 81), 7);
    // the insertion of an update
    assert_eq!(number(|_, records| records[4].count = 82), 11);
    // no deletion later
    accepted(|_, records| (records[8].count, records[10].count) = (83, 84));
}

/// So is one of another article that is absent.
#[test]
fn article_of_an_insertion() {
    assert_eq!(number(|_, records| records[0].article = 506), 5);
    assert_eq!(number(|_, records| records[6].article = 507), 9);
    // the deletion of an update
    assert_eq!(number(|_, records| records[1].article = 508), 3);
    assert_eq!(number(|_, records| records[2].article = 509), 7);
    // the article is inserted later, before the deletion
    assert_eq!(number(|_, records| records[2].article = 504), 6);
    // an update has one article, so its own insertion is wrong
    assert_eq!(number(|_, records| records[4].article = 510), 4);
    accepted(|_, records| records[10].article = 511);
}

/// A later time is legal too. Wrong is the next record, which does not rise above it.
#[test]
fn time_of_a_record() {
    assert_eq!(number(|_, records| records[2].time = 27), 3);
    assert_eq!(number(|_, records| records[3].time = 20), 4);
    assert_eq!(number(|_, records| records[5].time = 29), 6);
    assert_eq!(number(|_, records| records[6].time = 31), 7);
    // a deletion and, later, an insertion
    accepted(|_, records| records[4].time = 21);
}

/// A record that is wrong alone, before and behind the deletion that a damaged insertion makes wrong.
#[test]
fn damage_that_shows_later_and_another() {
    for wrong in WRONG_ALONE {
        for (other, first) in [(1, 1), (4, 4), (6, 5), (11, 5)] {
            let change = |_: &mut Header, records: &mut [Record]| {
                records[0].count = 78;
                wrong(&mut records[other]);
            };
            assert_eq!(number(change), first);
        }
    }
}

/// Opens the log, compares the answer with the second statement's and notes what was met.
fn compare(bytes: Vec<u8>, met: &mut BTreeMap<&'static str, u32>) {
    let header = Header::read(&bytes);
    let records = records(&bytes, header.records);
    let memory =
        Memory { log: bytes, index: vec![3; 200], table: vec![3; 8192], catalogue: vec![], areas: vec![] };
    let answer = Store::over(memory).open();
    if matches!(answer, Err(Refusal { question: 1..=4, .. })) {
        return;
    }
    let number = number_at_17(&header, &records);
    let expected = match number {
        Some(_) => Err(Refusal { question: 17, record: number }),
        None => Ok(()),
    };
    assert_eq!(answer, expected, "{header:?} {records:#?}");
    let kind = match number {
        None => "accepted",
        Some(k) if k == header.records => "last time",
        Some(0) => "first record",
        Some(k) if k + 1 == header.records => "last record",
        Some(_) => "record between",
    };
    *met.entry(kind).or_default() += 1;
}

#[test]
fn generated_logs() {
    let mut met = BTreeMap::new();
    for number in 0..9000 {
        let bytes = case(&mut Random::for_case(16, number)).bytes;
        let small = bytes.len() >= HEADER_BYTES && Header::read(&bytes).records <= 40;
        if small && bytes.len() >= log_length(Header::read(&bytes).records) {
            compare(bytes, &mut met);
        }
    }
    assert!(met.len() == 5 && met.values().all(|often| *often >= 100), "{met:?}");
}

/// A log of few articles, counts and times, so that each rule is kept and broken often.
fn close_log(random: &mut Random) -> Vec<u8> {
    let (articles, counts) = (random.from(1, 4), random.from(1, 2));
    let mut time = !random.percent(10) as u64;
    let mut records = Vec::new();
    for id in 0..random.from(0, 9) as u32 {
        let kind = if id == 0 { INSERTION } else { random.pick(&[INSERTION, DELETION]) };
        let (article, count) = (random.from(1, articles), random.from(1, counts));
        records.push(Record::new(kind, id, time, article as u32, count as u32));
        time = if random.percent(5) { time.saturating_sub(1) } else { time + random.pick(&[0, 1, 1, 2]) };
    }
    let last = last_time(&records) + random.percent(10) as u64;
    log_bytes(&Header::new(2, 2, random.from(1, 3) as u32, records.len() as u32, last), &records)
}

#[test]
fn close_logs() {
    let mut met = BTreeMap::new();
    for number in 0..20_000 {
        compare(close_log(&mut Random::for_case(17, number)), &mut met);
    }
    assert!(met.len() == 5 && met.values().all(|often| *often >= 100), "{met:?}");
}
