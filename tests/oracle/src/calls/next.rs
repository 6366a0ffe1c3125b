//! How a list goes on: a call for the store as it is.

use super::start::settings;
use super::{near, Call, Plan, WRONG_MARKS};
use crate::layout::{Record, Row, HEADER_BYTES, RECORD_BYTES, ROW_BYTES};
use crate::log::log_length;
use crate::mark::{PERMANENT, TO_DELETE};
use crate::outset::Entry;
use crate::random::Random;
use crate::store::{Numbers, Store};
use crate::table::table_length;

/// The next call of a list, for the store as it is.
pub fn call(random: &mut Random, plan: &Plan, store: &Store) -> Call {
    let Numbers { order, last, row_limit, .. } = store.numbers;
    if random.percent(plan.damage) {
        return Call::Damage(random.next());
    }
    // after a refused start, mostly another one, or a stranger's
    if order == 0 && random.percent(80) {
        if random.percent(40) {
            return Call::Damage(random.next());
        }
        return Call::Fresh(random.from(2, 5) as u16, random.from(2, 4) as u16, random.from(1, 6) as u32);
    }
    if random.percent(plan.appends) {
        let rising = random.percent(94);
        let next = if rising { last.saturating_add(random.from(1, plan.step)) } else { time(random, store) };
        return append(random, plan, store, next);
    }
    let t = asked(random, store);
    if random.percent(plan.files) {
        return of_files(random, plan, store, t);
    }
    let length = table_length(row_limit.min(1024));
    match random.from(0, 99) {
        0..=8 => Call::Position(t),
        9..=27 => Call::Table(t, near(random, length)),
        28..=45 => Call::View(t),
        46..=61 => {
            let (output, workspace) = (near(random, 3 * length), near(random, 2 * length));
            Call::NetChange(t, asked(random, store), output, workspace)
        }
        62..=69 => Call::Units(t),
        70..=84 => Call::UnitsBetween(t, asked(random, store)),
        85..=93 => Call::Audit,
        94..=97 => Call::Open,
        _ if !plan.starts => Call::Audit,
        _ => {
            let (order, page_size, row_limit) = settings(random);
            Call::Fresh(order, page_size, row_limit)
        }
    }
}

/// An insertion, a deletion or an update at this time.
fn append(random: &mut Random, plan: &Plan, store: &Store, time: u64) -> Call {
    let count = random.from(0, plan.most as u64) as u32;
    match random.from(0, 99) {
        0..=53 => Call::Insert(time, article(random, plan, store, 20), count),
        54..=73 => Call::Delete(time, article(random, plan, store, 85)),
        _ => Call::Update(time, article(random, plan, store, 85), count),
    }
}

/// A keep, a drop or a marked deletion.
fn of_files(random: &mut Random, plan: &Plan, store: &Store, t: u64) -> Call {
    // where there is none yet, mostly a keep
    if random.percent(plan.keeps) || (store.numbers.files == 0 && random.percent(70)) {
        let marks = if random.percent(8) { &WRONG_MARKS } else { plan.marks };
        return Call::Keep(t, random.pick(marks));
    }
    if random.percent(40) {
        return Call::Drop(kept_time(random, store).unwrap_or(t));
    }
    let kept = kept_entry(random, store).map(|entry| entry.mark).filter(|mark| TO_DELETE.contains(mark));
    Call::DropMarked(match random.from(0, 99) {
        0..=7 => PERMANENT,
        8..=15 => random.pick(&WRONG_MARKS),
        16..=39 => random.pick(&TO_DELETE),
        _ => kept.unwrap_or(random.pick(&TO_DELETE)),
    })
}

/// In a hundred times, so often an article that is present; else any of the plan's.
fn article(random: &mut Random, plan: &Plan, store: &Store, present: u64) -> u32 {
    let rows = store.memory.table.len() / ROW_BYTES;
    let live = rows.min(store.numbers.live as usize);
    if live > 0 && random.percent(present) {
        return Row::read(&store.memory.table[ROW_BYTES * random.place(live)..]).article;
    }
    random.from(0, plan.articles as u64) as u32
}

/// A time that a query or a keep asks for: often one after the last request.
fn asked(random: &mut Random, store: &Store) -> u64 {
    if random.percent(12) {
        late(random, store.numbers.last)
    } else {
        time(random, store)
    }
}

/// A time after the last request, if there is one: the next, a little or far past it, or one of the last three there are.
fn late(random: &mut Random, last: u64) -> u64 {
    match random.from(0, 4) {
        0 => last.saturating_add(1),
        1 => last.saturating_add(random.from(2, 9)),
        2 => last.saturating_add(1 << random.from(4, 63)),
        3 => random.from(last, u64::MAX),
        _ => last.max(u64::MAX - random.from(0, 2)),
    }
}

/// A time between the requests, at one or beside it, at a count file or beside it, at an end, or past the last.
fn time(random: &mut Random, store: &Store) -> u64 {
    let last = store.numbers.last;
    let place = match random.from(0, 7) {
        0 => return random.pick(&[0, 1, last, last.saturating_sub(1), last.saturating_add(1), u64::MAX]),
        1 => return last.saturating_add(random.from(1, 9)),
        2..=3 => request_time(random, store),
        4 => kept_time(random, store),
        _ => None,
    };
    match place {
        Some(t) => random.pick(&[t, t, t.saturating_sub(1), t.saturating_add(1)]),
        None => random.from(0, last),
    }
}

/// The time of one of the log's records, as far as the lent bytes go.
fn request_time(random: &mut Random, store: &Store) -> Option<u64> {
    let lent = store.memory.log.len().saturating_sub(HEADER_BYTES) / RECORD_BYTES;
    let records = lent.min(store.numbers.records as usize);
    let place = (records > 0).then(|| log_length(random.place(records) as u32))?;
    Some(Record::read(&store.memory.log[place..place + RECORD_BYTES]).time)
}

/// The time of one of the count files, mostly.
fn kept_time(random: &mut Random, store: &Store) -> Option<u64> {
    kept_entry(random, store).filter(|_| random.percent(85)).map(|entry| entry.time)
}

/// The entry of one of the count files, as far as the lent ones go.
fn kept_entry(random: &mut Random, store: &Store) -> Option<Entry> {
    let catalogue = &store.memory.catalogue;
    let files = catalogue.len().min(store.numbers.files as usize);
    (files > 0).then(|| catalogue[random.place(files)])
}
