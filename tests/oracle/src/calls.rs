//! Random lists of calls: lent memory at and around the lengths that just suffice, a start, then calls of
//! every kind, some that must be refused among them, and a stranger's damage to the memory.

mod almost;
mod damage;
mod deletions;
mod late;
mod marks;
mod next;
mod start;

pub use damage::damage;
pub use deletions::deletions;
pub use late::Late;
pub use marks::Marks;
pub use next::call;
pub use start::{large_log, large_memory, last_records, start};

use crate::mark::MARKS;
use crate::random::Random;

/// One call with its arguments.
#[derive(Clone, Copy, Debug, PartialEq, Eq)]
pub enum Call {
    /// order, page size, row limit
    Fresh(u16, u16, u32),
    Open,
    /// time, article, count
    Insert(u64, u32, u32),
    Delete(u64, u32),
    Update(u64, u32, u32),
    Position(u64),
    /// time, and the length of the output
    Table(u64, usize),
    View(u64),
    /// both times, and the lengths of the output and of the workspace
    NetChange(u64, u64, usize, usize),
    Units(u64),
    /// both times
    UnitsBetween(u64, u64),
    /// time, mark
    Keep(u64, u32),
    Drop(u64),
    /// mark
    DropMarked(u32),
    Audit,
    /// no call of the store: a stranger writes in its memory or numbers, or lends another length of it; the
    /// seed says where and what
    Damage(u64),
}

impl Call {
    pub fn name(&self) -> &'static str {
        match self {
            Call::Fresh(..) => "fresh store",
            Call::Open => "opening",
            Call::Insert(..) => "insert",
            Call::Delete(..) => "delete",
            Call::Update(..) => "update",
            Call::Position(_) => "position",
            Call::Table(..) => "table",
            Call::View(_) => "view",
            Call::NetChange(..) => "net change",
            Call::Units(_) => "units",
            Call::UnitsBetween(..) => "units between",
            Call::Keep(..) => "keep",
            Call::Drop(_) => "drop",
            Call::DropMarked(_) => "marked deletion",
            Call::Audit => "audit",
            Call::Damage(_) => "damage",
        }
    }

    /// The questions that the call asks.
    pub fn questions(&self) -> &'static [u8] {
        match self {
            Call::Fresh(..) => &[2, 3, 4, 5],
            Call::Open => &[1, 2, 3, 4, 5, 17],
            Call::Insert(..) => &[1, 6, 7, 9, 10, 11],
            Call::Delete(..) | Call::Update(..) => &[1, 6, 8, 10, 11],
            Call::Position(_) | Call::View(_) | Call::Units(_) | Call::UnitsBetween(..) => &[1],
            Call::Table(..) | Call::NetChange(..) => &[1, 13],
            Call::Keep(..) => &[1, 12, 18, 14, 15],
            Call::Drop(_) => &[1, 16],
            Call::DropMarked(_) => &[1, 18],
            Call::Audit | Call::Damage(_) => &[],
        }
    }
}

/// How a list goes on after its start.
pub struct Plan {
    articles: u32,
    /// the largest count; where it is small, totals agree though tables differ
    most: u32,
    /// in a hundred calls, how many are a stranger's damage
    damage: u64,
    /// in a hundred calls, how many append
    appends: u64,
    /// in a hundred others, how many keep or delete count files
    files: u64,
    /// in a hundred of those, how many keep one
    keeps: u64,
    /// the marks of those kept; where they are few, neighbours go together
    marks: &'static [u32],
    /// the most by which a time rises
    step: u64,
    /// whether a fresh store may follow the first start
    starts: bool,
    pub calls: u64,
}

impl Plan {
    pub fn new(random: &mut Random) -> Plan {
        Plan {
            articles: random.pick(&[2, 9, 40, 1_000]),
            most: random.pick(&[1, 2, 99, u32::MAX, u32::MAX]),
            damage: random.pick(&[0, 0, 5, 20]),
            appends: random.pick(&[30, 50, 75]),
            files: random.pick(&[20, 40, 75]),
            keeps: random.pick(&[60, 85, 97, 100]),
            marks: random.pick(&KEPT_MARKS),
            step: random.pick(&[1, 3, 1 << 40, 1 << 59]),
            starts: true,
            calls: if random.percent(90) { random.from(1, 90) } else { random.from(90, 600) },
        }
    }

    /// So many calls on a large store, articles and counts of any size.
    pub fn large(damage: u64, calls: u64) -> Plan {
        Plan {
            articles: u32::MAX,
            most: u32::MAX,
            damage,
            appends: 25,
            files: 25,
            keeps: 85,
            marks: &MARKS,
            step: 1 << 40,
            starts: false,
            calls,
        }
    }
}

/// The marks that a list keeps files with.
const KEPT_MARKS: [&[u32]; 9] =
    [&MARKS, &MARKS, &MARKS, &[0, 5, 5], &[7, 7, 0], &[5, 7], &[5, 7, 7], &[5], &[7]];

/// Marks that are wrong everywhere: beside a right one, with a bit more than it, or it at another byte.
const WRONG_MARKS: [u32; 15] =
    [1, 2, 4, 6, 8, 9, 0x100, 0x105, 0x107, 0x10007, 5 << 8, 5 << 24, 7 << 24, 7 | 1 << 31, u32::MAX];

/// A right mark or a wrong one.
fn any_mark(random: &mut Random) -> u32 {
    if random.percent(50) {
        random.pick(&MARKS)
    } else {
        random.pick(&WRONG_MARKS)
    }
}

/// A length at or near the one that suffices.
fn near(random: &mut Random, length: usize) -> usize {
    match random.from(0, 9) {
        0 => length.saturating_sub(1),
        1 => length + 1,
        2 => length + random.from(2, 30) as usize,
        _ => length,
    }
}
