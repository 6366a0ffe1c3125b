//! Which marks keeps, drops, marked deletions and audits meet (02, wish 3).

use super::Call;
use crate::mark::{FRIDAY, MARKS, PERMANENT, SUNDAY, TO_DELETE};
use crate::store::Store;
use std::collections::BTreeMap;

/// Of each call, whether it shows a thing of this name.
type Shown = Vec<(&'static str, bool)>;

/// How often a call showed what. What was never shown, though the call was met, is there too, with 0.
#[derive(Debug, Default)]
pub struct Marks(BTreeMap<[&'static str; 2], u64>);

impl Marks {
    /// How many kinds there are.
    pub const KINDS: usize = 47;

    /// Notes what a call shows in the store as it is before it.
    pub fn note(&mut self, call: &Call, store: &Store) {
        let shown = match *call {
            _ if !store.question_1() => return self.note_refused_by_1(call),
            Call::Keep(t, mark) => of_keep(store, t, mark),
            Call::Drop(t) => of_drop(store, t),
            Call::DropMarked(mark) => of_deletion(store, mark),
            Call::Audit => of_audit(store),
            _ => return,
        };
        // both marks that delete are to meet everything
        let name = match *call {
            Call::DropMarked(FRIDAY) => "marked deletion of 5",
            Call::DropMarked(SUNDAY) => "marked deletion of 7",
            _ => call.name(),
        };
        shown.into_iter().for_each(|(what, met)| *self.0.entry([name, what]).or_default() += met as u64);
    }

    /// A wrong mark where question 1 is answered no.
    fn note_refused_by_1(&mut self, call: &Call) {
        let wrong = match *call {
            Call::Keep(_, mark) => !MARKS.contains(&mark),
            Call::DropMarked(mark) => !TO_DELETE.contains(&mark),
            _ => return,
        };
        *self.0.entry([call.name(), "wrong, refused by 1"]).or_default() += wrong as u64;
    }

    pub fn add(&mut self, other: Marks) {
        other.0.into_iter().for_each(|(kind, often)| *self.0.entry(kind).or_default() += often);
    }

    /// Every kind of a call that was met, with how often it was.
    pub fn all(&self) -> Vec<([&'static str; 2], u64)> {
        self.0.iter().map(|(kind, often)| (*kind, *often)).collect()
    }

    /// Whether each kind was met so often.
    pub fn each(&self, least: u64) -> bool {
        self.0.len() == Marks::KINDS && self.0.values().all(|often| *often >= least)
    }
}

/// Wrong, though a right mark by its low byte, or 5 or 7 by its high one.
fn partly_right(mark: u32) -> bool {
    !MARKS.contains(&mark) && (MARKS.contains(&(mark & 0xFF)) || TO_DELETE.contains(&(mark >> 24)))
}

/// A keep is accepted with each mark, and a wrong one meets each other question answered no.
fn of_keep(store: &Store, t: u64, mark: u32) -> Shown {
    let (late, zero, kept) = (t > store.numbers.last, t == 0, store.is_kept(t));
    let full = store.numbers.files as usize == store.capacity();
    let right = MARKS.contains(&mark);
    let time_fine = !late && !zero && !kept;
    vec![
        ("accepted with 0", mark == PERMANENT && time_fine && !full),
        ("accepted with 5", mark == FRIDAY && time_fine && !full),
        ("accepted with 7", mark == SUNDAY && time_fine && !full),
        ("wrong, all else fine", !right && time_fine && !full),
        ("wrong, partly right", partly_right(mark) && time_fine && !full),
        ("wrong and late", !right && late),
        ("wrong and at 0", !right && zero && !full),
        ("wrong and kept already", !right && kept && !full),
        ("wrong and full", !right && time_fine && full),
        ("wrong, kept already and full", !right && kept && full),
        ("right, kept already and full", right && kept && full),
    ]
}

/// A file goes by its time, whatever its mark.
fn of_drop(store: &Store, t: u64) -> Shown {
    let goes = store.kept().iter().find(|entry| entry.time == t);
    let has = |mark| goes.is_some_and(|entry| entry.mark == mark);
    vec![
        ("of a file with 0", has(PERMANENT)),
        ("of a file with 5", has(FRIDAY)),
        ("of a file with 7", has(SUNDAY)),
    ]
}

/// How many go and where the others stay, or which wrong mark is refused.
fn of_deletion(store: &Store, mark: u32) -> Shown {
    if !TO_DELETE.contains(&mark) {
        return vec![
            ("permanent", mark == PERMANENT),
            ("wrong", mark != PERMANENT),
            ("wrong, partly right", partly_right(mark)),
        ];
    }
    let kept = store.kept();
    let goes: Vec<bool> = kept.iter().map(|entry| entry.mark == mark).collect();
    let gone = goes.iter().filter(|goes| **goes).count();
    let (first, last) = (goes.iter().position(|goes| *goes), goes.iter().rposition(|goes| *goes));
    let other_stays = kept.iter().any(|entry| entry.mark != mark && TO_DELETE.contains(&entry.mark));
    let run = |length: usize| goes.windows(length).any(|files| files.iter().all(|goes| *goes));
    vec![
        ("of no file", kept.is_empty()),
        ("none of some", gone == 0 && !kept.is_empty()),
        ("one goes", gone == 1),
        ("two neighbours go", run(2)),
        ("three neighbours go", run(3)),
        ("all of several go", gone == kept.len() && gone > 1),
        ("others stay before", first.is_some_and(|first| first > 0)),
        ("others stay between", gone > 0 && last.unwrap() - first.unwrap() >= gone),
        ("others stay behind", last.is_some_and(|last| last + 1 < kept.len())),
        ("the other mark stays", gone > 0 && other_stays),
        ("some of a full catalogue go", gone > 0 && kept.len() == store.capacity()),
    ]
}

/// What only the marks decide: a store that would be right with other ones.
fn of_audit(store: &Store) -> Shown {
    let (files, capacity) = (store.numbers.files as usize, store.capacity());
    let mut mended = store.clone();
    mended.memory.catalogue[..capacity].iter_mut().for_each(|entry| entry.mark = PERMANENT);
    let right_else = mended.audit();
    let (entries, past) = store.memory.catalogue.split_at(capacity);
    let (used, unused) = entries.split_at(files);
    let wrong_used = used.iter().any(|entry| !MARKS.contains(&entry.mark));
    let wrong_unused = unused.iter().any(|entry| entry.mark != PERMANENT);
    let right_unused = unused.iter().any(|entry| TO_DELETE.contains(&entry.mark));
    let right = right_else && !wrong_used && !wrong_unused;
    vec![
        ("all three marks", right && MARKS.iter().all(|mark| used.iter().any(|entry| entry.mark == *mark))),
        ("a mark past the capacity", right && past.iter().any(|entry| entry.mark != PERMANENT)),
        ("a wrong mark", right_else && wrong_used),
        ("a wrong mark, partly right", right_else && used.iter().any(|entry| partly_right(entry.mark))),
        ("a mark in an unused entry", right_else && wrong_unused),
        ("5 or 7 in an unused entry", right_else && right_unused),
    ]
}
