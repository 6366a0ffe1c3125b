//! Held times and the choice of an outset (01, "Count files"; 02, wish 6).

use crate::position::Position;

/// One entry of the catalogue. The choice of an outset does not look at the mark.
#[derive(Clone, Copy, Debug, Default, PartialEq, Eq)]
pub struct Entry {
    pub time: u64,
    pub rows: u32,
    /// what is to become of the file (02, wish 3)
    pub mark: u32,
}

/// Where a held table is.
#[derive(Clone, Copy, Debug, PartialEq, Eq)]
pub enum Place {
    /// the empty table of time 0
    Empty,
    /// the count file of this catalogue entry, its table in the area of that number
    File(usize),
    /// the current table
    Current,
}

/// A held table and the time it is held at.
#[derive(Clone, Copy, Debug, PartialEq, Eq)]
pub struct Held {
    pub time: u64,
    pub place: Place,
}

#[derive(Clone, Copy, Debug, PartialEq, Eq)]
pub enum Side {
    Earlier,
    Later,
}

/// The outset chosen for a time, and how many requests lie between the two.
#[derive(Clone, Copy, Debug, PartialEq, Eq)]
pub struct Outset {
    pub held: Held,
    pub side: Side,
    /// records, so two for an update
    pub requests_between: u32,
}

/// All that is held: the empty table at 0, each count file, the current table at the last time.
pub fn held(files: &[Entry], last: u64) -> Vec<Held> {
    let mut all = vec![Held { time: 0, place: Place::Empty }];
    all.extend(files.iter().enumerate().map(|(i, entry)| Held { time: entry.time, place: Place::File(i) }));
    all.push(Held { time: last, place: Place::Current });
    all
}

/// 02's "requests between it and the wanted time": "the larger less the smaller of two", as in 01, here of
/// the request counts of t and of the outset's time. The records at t itself are in the count of t, so
/// they are between t and an earlier outset, and not between t and a later one.
pub fn requests_between(outset: Position, wanted: Position) -> u32 {
    outset.requests.abs_diff(wanted.requests)
}

/// The nearest held time ≤ t: 0 or a count file, never the current table.
pub fn earlier_candidate(files: &[Entry], last: u64, t: u64) -> Held {
    held(files, last)
        .into_iter()
        .filter(|held| held.place != Place::Current && held.time <= t)
        .max_by_key(|held| held.time)
        .unwrap()
}

/// The nearest held time ≥ t: a count file or the current table, the file first where both are at
/// the last time.
pub fn later_candidate(files: &[Entry], last: u64, t: u64) -> Held {
    held(files, last)
        .into_iter()
        .filter(|held| held.place != Place::Empty && held.time >= t)
        .min_by_key(|held| (held.time, held.place == Place::Current))
        .unwrap()
}

/// "The outset is now, of 01's two, the one with fewest requests between it and the wanted time, and the
/// earlier one on a tie." Asked for t ≤ last only; `position` is that of the log.
pub fn choose(position: impl Fn(u64) -> Position, files: &[Entry], last: u64, t: u64) -> Outset {
    let earlier = earlier_candidate(files, last, t);
    let later = later_candidate(files, last, t);
    let wanted = position(t);
    let after_earlier = requests_between(position(earlier.time), wanted);
    let before_later = requests_between(position(later.time), wanted);
    if before_later < after_earlier {
        Outset { held: later, side: Side::Later, requests_between: before_later }
    } else {
        Outset { held: earlier, side: Side::Earlier, requests_between: after_earlier }
    }
}
