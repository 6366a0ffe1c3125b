//! The generators: legal logs are legal and varied; each damage is refused now and then, by the
//! number it aims at; of several wrong records the first is answered.

mod common;

use common::legal::form_right;
use common::units::{on_hand, told_apart, wrong_totals};
use oracle::generate::{case, damages, legal_log, Damage, MOST_LISTED};
use oracle::layout::{Header, Record};
use oracle::listing::{listing, HEADING, LENT_LOG};
use oracle::log::{first_wrong, last_time, records};
use oracle::random::Random;
use oracle::store::{Memory, Refusal, Store};
use std::collections::{BTreeMap, BTreeSet};

#[test]
fn legal_logs_are_legal_and_varied() {
    let (mut orders, mut page_sizes, mut row_limits) = (BTreeSet::new(), BTreeSet::new(), BTreeSet::new());
    let (mut longest, mut latest, mut behind) = (0, 0, 0);
    for case in 0..2000 {
        let log = legal_log(&mut Random::for_case(11, case));
        assert_eq!(first_wrong(log.header.row_limit, &log.records), None);
        assert_eq!(log.header.last, last_time(&log.records));
        assert_eq!(log.header.records as usize, log.records.len());
        assert!(log.header.records <= MOST_LISTED);
        orders.insert(log.header.order);
        page_sizes.insert(log.header.page_size);
        row_limits.insert(log.header.row_limit);
        longest = longest.max(log.header.records);
        latest = latest.max(log.header.last);
        behind += !log.behind.is_empty() as u32;
    }
    assert_eq!(orders, (2..=64).collect());
    assert_eq!(page_sizes, (2..=64).collect());
    assert!(row_limits.contains(&1) && row_limits.contains(&1024) && row_limits.len() > 100);
    assert_eq!((longest, latest), (MOST_LISTED, u64::MAX));
    assert!(behind > 100);
}

/// The refusals that a damage leads to, over some logs.
fn refusals(damage: Damage) -> BTreeSet<String> {
    let outputs = (0..150).map(|case| {
        let mut random = Random::for_case(13, case);
        let log = legal_log(&mut random);
        if log.records.len() > 300 {
            return String::new();
        }
        listing(&damage(&mut random, log))
    });
    outputs.filter(|output| output.starts_with("refused")).collect()
}

#[test]
fn each_damage_is_refused_as_it_should_be() {
    for (name, damage) in damages() {
        let expected = match name {
            "header length" | "header kind" => "refused 1\n",
            "order" => "refused 2\n",
            "page size" => "refused 3\n",
            "row limit" => "refused 4\n",
            "too many records in the header" => "refused 5\n",
            // keys and page positions change, but the log is legal
            "another order or page size in range" => {
                assert_eq!(refusals(damage), BTreeSet::new());
                continue;
            }
            _ => "refused 17\n",
        };
        assert!(refusals(damage).contains(expected), "{name}");
    }
}

/// The record number at 17, if the opening is refused by 17.
fn answered_at_17(log: Vec<u8>) -> Option<u32> {
    let memory = Memory { log, index: vec![0; 400], table: vec![0; 8192], catalogue: vec![], areas: vec![] };
    match Store::over(memory).open() {
        Err(Refusal { question: 17, record }) => record,
        _ => None,
    }
}

/// Where the first damaged record is wrong by its form, it is the one answered, whatever is wrong
/// behind it.
#[test]
fn several_wrong_records() {
    let named = |name: &str| name.starts_with("two records") || name.starts_with("three records");
    let several: Vec<(&str, Damage)> = damages().into_iter().filter(|(name, _)| named(name)).collect();
    assert_eq!(several.len(), 4);
    for (name, damage) in several {
        let (mut two, mut three, mut last) = (0, 0, 0);
        for case in 0..600 {
            let mut random = Random::for_case(14, case);
            let log = legal_log(&mut random);
            if log.records.len() > 300 {
                continue;
            }
            let legal = log.records.clone();
            let bytes = damage(&mut random, log);
            let header = Header::read(&bytes);
            let damaged = records(&bytes, header.records);
            let first = (0..legal.len()).find(|&k| damaged[k] != legal[k]);
            let wrong: Vec<usize> = (0..legal.len()).filter(|&k| !form_right(k, &damaged[k])).collect();
            if first.is_none() || first != wrong.first().copied() {
                continue;
            }
            assert_eq!(answered_at_17(bytes), Some(wrong[0] as u32), "{name}");
            let far = legal.len() >= 20 && wrong.windows(2).all(|pair| pair[1] - pair[0] >= legal.len() / 6);
            two += (far && wrong.len() >= 2) as u32;
            three += (far && wrong.len() == 3) as u32;
            last += (far && wrong.len() >= 2 && header.last != last_time(&damaged)) as u32;
        }
        assert!(two >= 20, "{name}: {two}");
        assert_eq!(three >= 5, name.starts_with("three"), "{name}: {three}");
        assert_eq!(last >= 20, name.ends_with("last time"), "{name}: {last}");
    }
}

#[test]
fn cases_cover_all_damages() {
    let name = |number| case(&mut Random::for_case(18, number)).name;
    let seen: BTreeSet<&str> = (0..1500).map(name).collect();
    let expected = damages().into_iter().map(|(name, _)| name).chain(["legal log", "any bytes"]);
    assert_eq!(seen, expected.collect());
}

#[test]
fn cases_cover_all_answers() {
    let mut seen = BTreeSet::new();
    for number in 0..1500 {
        let case = case(&mut Random::for_case(12, number));
        if case.bytes.len() < 10_000 {
            seen.insert(listing(&case.bytes).lines().next().unwrap().to_string());
        }
    }
    let expected =
        ["refused 1", "refused 17", "refused 2", "refused 3", "refused 4", "refused 5", HEADING.trim_end()];
    assert_eq!(seen, expected.map(String::from).into());
}

/// Time, page, and whether the outset is the later one.
fn line(text: &str) -> (u64, u32, bool) {
    let fields: Vec<&str> = text.split(' ').collect();
    (fields[0].parse().unwrap(), fields[1].parse().unwrap(), fields[2] == "L")
}

/// The records and the lines below the heading of a log that `compare_listing` takes, if it is not refused.
fn listed_case(number: u64) -> Option<(Vec<Record>, Vec<String>)> {
    let mut bytes = case(&mut Random::for_case(2055, number)).bytes;
    let output = listing(&bytes);
    let lines = output.strip_prefix(HEADING)?.lines().map(String::from).collect();
    bytes.resize(LENT_LOG.max(bytes.len()), 0);
    Some((records(&bytes, Header::read(&bytes).records), lines))
}

/// The logs that `compare_listing` takes first: many tell nearness in requests (02, wish 6) from nearness in pages.
///
/// Without a file the candidates are time 0 and the last time. There pages never chose the later one against the
/// requests: the last of c requests is on page p = (c - 1) / N, rounded down, the last of all n on P = (n - 1) / N.
/// From n >= 2c follows n - 1 >= 2pN + 1, so P >= 2p.
#[test]
fn listings_are_other_than_by_pages() {
    let (mut logs, mut lines, mut ties, mut updates) = (0, 0, 0, 0);
    for number in 0..1000 {
        let Some((records, output)) = listed_case(number) else { continue };
        let n = records.len() as u32;
        let listed: Vec<_> = output[..output.len() - 1].iter().map(|text| line(text)).collect();
        let Some(&(_, last_page, _)) = listed.last() else { continue };
        let before = lines;
        for (i, &(time, page, later)) in listed.iter().enumerate() {
            let until = records.iter().filter(|record| record.time <= time).count() as u32;
            assert_eq!(later, n - until < until, "case {number}, time {time}");
            let later_by_pages = last_page - page < page;
            assert!(later || !later_by_pages, "case {number}, time {time}");
            // the last line of a one-page log turns whatever the counts are, and is left out
            lines += (later && !later_by_pages && until < n) as u32;
            ties += (until == n - until) as u32;
            // an update has one line, and would be one request
            updates += (later != (listed.len() - (i + 1) < i + 1)) as u32;
        }
        logs += (lines > before) as u32;
    }
    assert!(logs > 300 && lines > 2000 && ties > 100 && updates > 200, "{logs}, {lines}, {ties}, {updates}");
}

/// The same logs: below the last table stand its units, and many of them are other by a wrong way.
#[test]
fn listings_tell_wrong_totals() {
    let mut met: BTreeMap<&'static str, u32> = BTreeMap::new();
    for number in 0..1000 {
        let Some((records, lines)) = listed_case(number) else { continue };
        let last = last_time(&records);
        let right = on_hand(&records, last);
        assert_eq!(lines[lines.len() - 1], format!("units {right}"), "case {number}");
        let mut shown = told_apart(right, wrong_totals(&records, last));
        if right == 0 && !records.is_empty() {
            shown.push("0 after requests");
        }
        shown.into_iter().for_each(|name| *met.entry(name).or_default() += 1);
    }
    // all wrong totals but the current one, which is the total of the last table
    assert_eq!(met.len(), 7, "{met:?}");
    assert!(met.values().all(|often| *often >= 20), "{met:?}");
}
