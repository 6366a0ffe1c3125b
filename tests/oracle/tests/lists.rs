//! The random lists of calls that two stores are compared by: they meet every call, every question, every
//! capacity, times after the last request, marks, logs with several wrong records, and memory that the audit denies.

mod common;

use common::units::{shown_at, shown_between, told_apart, wrong_differences, wrong_totals, NAMES};
use common::{candidates, legal::form_right, records_between, side_by_pages};
use oracle::calls::{call, damage, start, Call, Late, Marks, Plan};
use oracle::layout::Header;
use oracle::limits::{ORDERS, PAGE_SIZES};
use oracle::log::records;
use oracle::outset::{Place, Side};
use oracle::random::Random;
use oracle::store::{Refusal, Store};
use std::collections::{BTreeMap, BTreeSet};
use std::sync::OnceLock;

/// What lists met.
#[derive(Default)]
struct Met {
    /// how often a call ended by this question, 0 where it was accepted
    ends: BTreeMap<(&'static str, u8), u32>,
    /// calls on memory that question 1 passes and the audit denies
    denied: BTreeMap<&'static str, u32>,
    /// openings of a log with another wrong record far behind the one answered
    wrong_behind: u32,
    orders: BTreeSet<u16>,
    page_sizes: BTreeSet<u16>,
    row_limits: BTreeSet<u32>,
    /// capacity and files of accepted keeps
    keeps: BTreeSet<(usize, u32)>,
    /// count files before and after the one dropped
    drops: BTreeSet<(usize, usize)>,
    audits: [u32; 2],
    /// place without its number, side, and whether no request is between
    views: BTreeMap<(&'static str, bool, bool), u32>,
    /// times after the last request, on memory that the audit passes: those answered, and of keeps those refused by 12
    late: Late,
    /// and the views of such times: place without its number, side, requests between
    late_views: BTreeMap<(&'static str, bool, u32), u32>,
    /// marks, on memory that the audit passes or question 1 denies, and those that an audit meets after damage
    marks: Marks,
    /// tables and views of other times, on memory that the audit passes, with the other side by pages, and whether the
    /// later outset was used
    other_by_pages: BTreeMap<(&'static str, bool), u32>,
    /// and those with as many requests between on either side, not none
    ties: BTreeMap<&'static str, u32>,
    /// of times up to the last
    empty_net_changes: u32,
    net_changes: u32,
    /// what units and units between of such times show on memory that the audit passes, and the wrong ways that they tell
    /// apart
    units: BTreeMap<(&'static str, &'static str), u32>,
}

impl Met {
    /// Notes a side that pages would not have chosen, and a tie.
    fn outset(&mut self, store: &Store, t: u64, name: &'static str, side: Side) {
        if t > store.numbers.last || !store.audit() {
            return;
        }
        if side != side_by_pages(store, t) {
            *self.other_by_pages.entry((name, side == Side::Later)).or_default() += 1;
        }
        let records = store.records();
        let [before, after] = candidates(store, t).map(|held| records_between(&records, held.time, t));
        if before == after && before > 0 {
            *self.ties.entry(name).or_default() += 1;
        }
    }
}

impl Met {
    fn units(&mut self, store: &Store, t: u64, units: u64) {
        if t <= store.numbers.last && store.audit() {
            let records = store.records();
            self.note_units("at", shown_at(&records, t));
            self.note_units("at", told_apart(units as i128, wrong_totals(&records, t)));
        }
    }

    fn units_between(&mut self, store: &Store, a: u64, b: u64, between: i64) {
        if a.max(b) <= store.numbers.last && store.audit() {
            let records = store.records();
            self.note_units("between", shown_between(&records, a, b));
            self.note_units("between", told_apart(between as i128, wrong_differences(&records, a, b)));
        }
    }

    fn note_units(&mut self, asked: &'static str, names: Vec<&'static str>) {
        names.into_iter().for_each(|name| *self.units.entry((asked, name)).or_default() += 1);
    }
}

/// Whether the next record that its own form makes wrong is more than ten behind this one.
fn wrong_far_behind(log: &[u8], k: u32) -> bool {
    let records = records(log, Header::read(log).records);
    let next = (k as usize + 1..records.len()).find(|&j| !form_right(j, &records[j]));
    next.is_some_and(|next| next > k as usize + 10)
}

/// Makes the call on the oracle and notes what it meets.
fn make(store: &mut Store, call: Call, met: &mut Met) -> Result<(), Refusal> {
    match call {
        Call::Fresh(order, page_size, row_limit) => store.fresh(order, page_size, row_limit),
        Call::Open => {
            let answer = store.open();
            if let Err(Refusal { record: Some(k), .. }) = answer {
                met.wrong_behind += wrong_far_behind(&store.memory.log, k) as u32;
            }
            answer
        }
        Call::Insert(time, article, count) => store.insert(time, article, count),
        Call::Delete(time, article) => store.delete(time, article),
        Call::Update(time, article, count) => store.update(time, article, count),
        Call::Position(t) => store.position(t).map(drop),
        Call::Table(t, length) => store.table(t, &mut vec![0; length]).map(|answer| {
            met.outset(store, t, "table", answer.side);
        }),
        Call::View(t) => store.view(t).map(|view| {
            let place = match view.place {
                Place::Empty => "empty",
                Place::File(_) => "area",
                Place::Current => "current",
            };
            let (later, between) = (view.side == Side::Later, view.requests_between);
            if t <= store.numbers.last {
                *met.views.entry((place, later, between == 0)).or_default() += 1;
            } else if store.audit() {
                *met.late_views.entry((place, later, between)).or_default() += 1;
            }
            met.outset(store, t, "view", view.side);
        }),
        Call::NetChange(a, b, output, workspace) => {
            store.net_change(a, b, &mut vec![0; output], &mut vec![0; workspace]).map(|entries| {
                if a.max(b) <= store.numbers.last {
                    met.net_changes += 1;
                    met.empty_net_changes += (entries == 0) as u32;
                }
            })
        }
        Call::Units(t) => store.units(t).map(|units| met.units(store, t, units)),
        Call::UnitsBetween(a, b) => {
            store.units_between(a, b).map(|between| met.units_between(store, a, b, between))
        }
        Call::Keep(t, mark) => store.keep(t, mark).map(|()| {
            met.keeps.insert((store.capacity(), store.numbers.files));
        }),
        Call::Drop(t) => {
            let before = store.clone();
            store.drop_file(t).map(|()| {
                let place = before.kept().iter().position(|entry| entry.time == t).unwrap();
                met.drops.insert((place, before.kept().len() - place - 1));
            })
        }
        Call::DropMarked(mark) => store.drop_marked(mark).map(drop),
        Call::Audit => {
            met.audits[store.audit() as usize] += 1;
            Ok(())
        }
        Call::Damage(seed) => {
            damage(store, seed);
            Ok(())
        }
    }
}

fn list(random: &mut Random, met: &mut Met) {
    let (memory, first) = start(random);
    let plan = Plan::new(random);
    let mut store = Store::over(memory);
    let (mut next, mut damaged) = (first, false);
    for _ in 0..plan.calls {
        damaged |= matches!(next, Call::Damage(_));
        if damaged && store.position(0).is_ok() && !store.audit() {
            *met.denied.entry(next.name()).or_default() += 1;
        } else {
            met.marks.note(&next, &store);
        }
        let last = store.numbers.last;
        let question = make(&mut store, next, met).map_or_else(|refusal| refusal.question, |()| 0);
        if matches!(next, Call::Damage(_)) {
            met.marks.note(&Call::Audit, &store);
        }
        // a query leaves the memory that it was asked on, and so does a refused keep
        let expected = if let Call::Keep(..) = next { 12 } else { 0 };
        if question == expected && (!damaged || store.audit()) {
            met.late.note(&next, last);
        }
        *met.ends.entry((next.name(), question)).or_default() += 1;
        met.orders.insert(store.numbers.order);
        met.page_sizes.insert(store.numbers.page_size);
        met.row_limits.insert(store.numbers.row_limit);
        next = call(random, &plan, &store);
    }
}

/// What 5,000 lists met.
fn lists() -> &'static Met {
    static MET: OnceLock<Met> = OnceLock::new();
    MET.get_or_init(|| {
        let mut met = Met::default();
        for number in 0..5000 {
            list(&mut Random::for_case(2055, number), &mut met);
        }
        met
    })
}

/// All of a call's questions, and its acceptance.
#[test]
fn every_call_ends_by_every_question() {
    let met = lists();
    let calls = [
        Call::Fresh(0, 0, 0),
        Call::Open,
        Call::Insert(0, 0, 0),
        Call::Delete(0, 0),
        Call::Update(0, 0, 0),
        Call::Position(0),
        Call::Table(0, 0),
        Call::View(0),
        Call::NetChange(0, 0, 0, 0),
        Call::Units(0),
        Call::UnitsBetween(0, 0),
        Call::Keep(0, 0),
        Call::Drop(0),
        Call::DropMarked(0),
    ];
    for call in calls {
        for &question in [0].iter().chain(call.questions()) {
            let often = met.ends.get(&(call.name(), question));
            assert!(often.is_some_and(|often| *often >= 10), "{} by {question}: {often:?}", call.name());
        }
        let asked = met.ends.keys().filter(|(of, _)| *of == call.name()).count();
        assert_eq!(asked, 1 + call.questions().len(), "{}", call.name());
    }
    assert!(met.audits.iter().all(|often| *often > 100));
}

/// "Only a keep can meet 12" (02, wish 2), on a stranger's memory too.
#[test]
fn only_a_keep_meets_12() {
    let ends = &lists().ends;
    let by_12: Vec<&str> =
        ends.keys().filter(|(_, question)| *question == 12).map(|(name, _)| *name).collect();
    assert_eq!(by_12, ["keep"]);
    assert!(ends[&("keep", 12)] > 500, "{}", ends[&("keep", 12)]);
}

/// After a last request at 60.
#[test]
fn late_times_are_told_apart() {
    let mut late = Late::default();
    let early = [Call::Position(60), Call::UnitsBetween(60, 59), Call::Drop(61), Call::Insert(61, 7, 1)];
    early.iter().for_each(|call| late.note(call, 60));
    assert!(late.all().iter().all(|(_, often)| *often == 0));
    let (end, pair) = (u64::MAX, |a, b| Call::NetChange(a, b, 0, 0));
    let calls =
        [Call::Position(61), Call::Keep(69, 0), Call::UnitsBetween(70, 60), pair(60, 61), pair(61, end)];
    calls.iter().chain(&calls[..1]).for_each(|call| late.note(call, 60));
    let met: Vec<_> = late.all().into_iter().filter(|(_, often)| *often > 0).collect();
    let expected = [
        (["position", "its time", "by one"], 2),
        (["net change", "the second", "by one"], 1),
        (["net change", "both", "the last time there is"], 1),
        (["units between", "the first", "far"], 1),
        (["keep", "its time", "by little"], 1),
    ];
    assert_eq!(met, expected);
}

/// Every query for times after the last request, by little and by much, the one, the other or both of a pair.
#[test]
fn times_after_the_last_are_met() {
    let Met { late, late_views, .. } = lists();
    let all = late.all();
    assert_eq!(all.len(), 44);
    assert!(all.iter().all(|(_, often)| *often >= 20), "{all:?}");
    // no request is between: time 0 where there is none at all, a file of the last time, the current table
    let views: Vec<_> = late_views.keys().copied().collect();
    assert_eq!(views, [("area", false, 0), ("current", true, 0), ("empty", false, 0)]);
    assert!(late_views.values().all(|often| *often >= 50), "{late_views:?}");
}

/// Each mark kept, dropped and deleted, wrong ones beside every other question, neighbours that go and files that stay.
#[test]
fn marks_are_met() {
    let marks = &lists().marks;
    assert!(marks.each(20), "{:#?}", marks.all());
}

#[test]
fn settings_and_sizes_are_varied() {
    let met = lists();
    assert!(ORDERS.chain([0]).all(|order| met.orders.contains(&order)));
    assert!(PAGE_SIZES.chain([0]).all(|page_size| met.page_sizes.contains(&page_size)));
    assert!(met.row_limits.contains(&1) && met.row_limits.contains(&1024) && met.row_limits.len() > 100);
    // each capacity was filled to its last file
    assert!((1..=16).all(|files| met.keeps.contains(&(files as usize, files))));
    // the first file of several, one of the middle, the last
    assert!(met.drops.iter().any(|&(before, after)| before == 0 && after >= 3));
    assert!(met.drops.iter().any(|&(before, after)| before >= 3 && after >= 3));
    assert!(met.drops.iter().any(|&(before, after)| before >= 3 && after == 0));
}

/// All outsets there are, and both net changes that have no entry and those that have some.
#[test]
fn answers_are_varied() {
    let met = lists();
    for (place, later) in [("empty", false), ("area", false), ("area", true), ("current", true)] {
        for none_between in [false, true] {
            assert!(met.views[&(place, later, none_between)] > 50, "{place}, later: {later}");
        }
    }
    assert!(met.empty_net_changes > 100 && met.net_changes > 2 * met.empty_net_changes);
}

/// A store that still counts pages is found out, whichever way it errs, and so is one that takes the later
/// outset on a tie.
#[test]
fn sides_are_other_than_by_pages() {
    let Met { other_by_pages, ties, .. } = lists();
    for name in ["table", "view"] {
        assert!(other_by_pages[&(name, true)] > 500, "{other_by_pages:?}");
        assert!(other_by_pages[&(name, false)] >= 20, "{other_by_pages:?}");
        assert!(ties[name] > 100, "{ties:?}");
    }
}

/// Stock that rose and fell, totals that agree though tables differ, totals above 2^32, and a store that adds up or
/// subtracts in a wrong way is found out.
#[test]
fn units_are_varied() {
    let met = lists();
    assert_eq!(met.units.len(), NAMES, "{:?}", met.units);
    assert!(met.units.values().all(|often| *often >= 20), "{:?}", met.units);
}

/// Every later call, on memory that question 1 passes and the audit denies.
#[test]
fn denied_memory_is_met() {
    let met = lists();
    let appends = ["insert", "delete", "update"];
    let queries = ["position", "table", "view", "net change", "units", "units between"];
    for later in appends.iter().chain(&queries).chain(&["keep", "drop", "marked deletion"]) {
        assert!(met.denied[later] > 100, "{later}");
    }
    assert!(met.denied["audit"] > 100);
}

#[test]
fn several_wrong_records_are_met() {
    assert!(lists().wrong_behind >= 20, "{}", lists().wrong_behind);
}
