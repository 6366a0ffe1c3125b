//! Compares the proved store with the oracle after a call: the answer, the numbers, all of the lent memory, the output and the
//! workspace. On memory that the audit denies, where 01 leaves most answers open, it compares what is promised there.

mod list;

pub use list::{list, Difference, Notes};

use crate::calls::Call;
use crate::layout::{Row, HEADER_BYTES, ROW_BYTES};
use crate::log::log_length;
use crate::net_change::output_length;
use crate::odd_bytes::STRANGE;
use crate::outset::Place;
use crate::position::Position;
use crate::proved;
use crate::store::{Memory, Numbers, Refusal, Store, TableAnswer, View};
use crate::table::{read_rows, table_length};
use crate::tree::word_count;
use std::fmt::Debug;

/// What a call answered, and the output and the workspace that it wrote.
#[derive(Clone, Debug, PartialEq, Eq)]
pub enum Answer {
    Change(Result<(), Refusal>),
    /// how many count files went
    Gone(Result<u32, Refusal>),
    Position(Result<Position, Refusal>),
    Table(Result<TableAnswer, Refusal>, Vec<u8>),
    /// and the rows of the part
    View(Result<View, Refusal>, Vec<Row>),
    NetChange(Result<u32, Refusal>, Vec<u8>, Vec<u8>),
    Units(Result<u64, Refusal>),
    UnitsBetween(Result<i64, Refusal>),
    Audit(bool),
    None,
}

impl Answer {
    /// The oracle's.
    fn right(store: &mut Store, call: Call) -> Answer {
        match call {
            Call::Fresh(order, page_size, row_limit) => {
                Answer::Change(store.fresh(order, page_size, row_limit))
            }
            Call::Open => Answer::Change(store.open()),
            Call::Insert(time, article, count) => Answer::Change(store.insert(time, article, count)),
            Call::Delete(time, article) => Answer::Change(store.delete(time, article)),
            Call::Update(time, article, count) => Answer::Change(store.update(time, article, count)),
            Call::Position(t) => Answer::Position(store.position(t)),
            Call::Table(t, length) => {
                let mut output = vec![STRANGE; length];
                Answer::Table(store.table(t, &mut output), output)
            }
            Call::View(t) => {
                let view = store.view(t);
                let rows = view.map_or(vec![], |view| read_rows(store.view_bytes(&view), view.rows as usize));
                Answer::View(view, rows)
            }
            Call::NetChange(a, b, output, workspace) => {
                let (mut output, mut workspace) = (vec![STRANGE; output], vec![STRANGE; workspace]);
                Answer::NetChange(store.net_change(a, b, &mut output, &mut workspace), output, workspace)
            }
            Call::Units(t) => Answer::Units(store.units(t)),
            Call::UnitsBetween(a, b) => Answer::UnitsBetween(store.units_between(a, b)),
            Call::Keep(t, mark) => Answer::Change(store.keep(t, mark)),
            Call::Drop(t) => Answer::Change(store.drop_file(t)),
            Call::DropMarked(mark) => Answer::Gone(store.drop_marked(mark)),
            Call::Audit => Answer::Audit(store.audit()),
            Call::Damage(_) => Answer::None,
        }
    }

    fn refusal(&self) -> Option<Refusal> {
        match self {
            Answer::Change(result) => result.err(),
            Answer::Gone(result) => result.err(),
            Answer::Position(result) => result.err(),
            Answer::Table(result, _) => result.err(),
            Answer::View(result, _) => result.err(),
            Answer::NetChange(result, ..) => result.err(),
            Answer::Units(result) => result.err(),
            Answer::UnitsBetween(result) => result.err(),
            Answer::Audit(_) | Answer::None => None,
        }
    }

    /// How many rows or entries it has.
    pub fn size(&self) -> u32 {
        match self {
            Answer::Table(Ok(TableAnswer { rows, .. }), _) | Answer::View(Ok(View { rows, .. }), _) => *rows,
            Answer::NetChange(Ok(entries), ..) => *entries,
            _ => 0,
        }
    }
}

/// Answer, numbers and memory are the oracle's.
pub fn whole(oracle: &mut Store, proved: &mut Store, call: Call, odd: usize) -> Result<Answer, String> {
    let (right, got) = (Answer::right(oracle, call), proved::answer(proved, call, odd)?);
    same("answer", &right, &got)?;
    same_stores(oracle, proved)?;
    Ok(got)
}

/// Memory that the audit denies; the oracle goes on from what the proved store left. Promised are question 1, that a refusal
/// is by one of the call's questions and changes nothing, the bytes no call names, and how many rows and entries there may be.
pub fn denied(oracle: &mut Store, proved: &mut Store, call: Call, odd: usize) -> Result<Answer, String> {
    let before = oracle.clone();
    let got = proved::answer(proved, call, odd)?;
    compare_refusal(&before, proved, call, got.refusal())?;
    only_named(&before, &proved.memory, call)?;
    only_named_outputs(&before, &got)?;
    *oracle = proved.clone();
    Ok(got)
}

/// Question 1 refuses exactly where it must, and a refusal, by a question of the call, changes nothing.
fn compare_refusal(
    before: &Store,
    after: &Store,
    call: Call,
    refusal: Option<Refusal>,
) -> Result<(), String> {
    let by_question_1 = refusal.is_some_and(|refusal| refusal.question == 1);
    same("refused by 1", &!question_1(before), &by_question_1)?;
    if let Some(Refusal { question, .. }) = refusal {
        same("a question of the call", &true, &call.questions().contains(&question))?;
        same_stores(before, after).map_err(|what| format!("after a refusal, {what}"))?;
    }
    Ok(())
}

/// A position is refused by question 1 alone.
pub fn question_1(store: &Store) -> bool {
    store.position(0).is_ok()
}

/// Only what 01 says that the call writes may differ: of an append the header, the slots of its records, the
/// nodes then needed and the table; of a keep, a drop and a marked deletion the entries and the areas of the files.
fn only_named(before: &Store, after: &Memory, call: Call) -> Result<(), String> {
    let mut named = before.memory.clone();
    let Numbers { order, page_size, row_limit, records, files, .. } = before.numbers;
    let (more_records, files) = match call {
        Call::Insert(..) | Call::Delete(..) => (1, 0),
        Call::Update(..) => (2, 0),
        Call::Keep(..) => (0, files as usize + 1),
        Call::Drop(_) | Call::DropMarked(_) => (0, files as usize),
        _ => (0, 0),
    };
    if question_1(before) && more_records > 0 {
        let log = log_length(records)..log_length(records + more_records).min(named.log.len());
        let index = ..word_count(order, page_size, records + more_records).min(named.index.len());
        let table = ..table_length(row_limit);
        named.log[..HEADER_BYTES].copy_from_slice(&after.log[..HEADER_BYTES]);
        named.log[log.clone()].copy_from_slice(&after.log[log]);
        named.index[index].copy_from_slice(&after.index[index]);
        named.table[table].copy_from_slice(&after.table[table]);
    }
    if question_1(before) && files > 0 {
        let entries = ..files.min(named.catalogue.len());
        let areas = ..(files * table_length(row_limit)).min(named.areas.len());
        named.catalogue[entries].copy_from_slice(&after.catalogue[entries]);
        named.areas[areas].copy_from_slice(&after.areas[areas]);
    }
    same_memory(&named, after)
}

/// Only the front of an output and of a workspace was written, nothing by a refusal; a view lies in its region.
fn only_named_outputs(before: &Store, answer: &Answer) -> Result<(), String> {
    let row_limit = before.numbers.row_limit;
    let untouched = |bytes: &[u8], named: usize| bytes.iter().skip(named).all(|byte| *byte == STRANGE);
    let right = match answer {
        Answer::Table(Ok(_), output) => untouched(output, table_length(row_limit)),
        Answer::Table(Err(_), output) => untouched(output, 0),
        Answer::NetChange(Ok(_), output, workspace) => {
            untouched(output, output_length(row_limit)) && untouched(workspace, 2 * table_length(row_limit))
        }
        Answer::NetChange(Err(_), output, workspace) => untouched(output, 0) && untouched(workspace, 0),
        Answer::View(Ok(View { place, start, length, .. }), _) => {
            let memory = &before.memory;
            let region = if let Place::File(_) = place { &memory.areas } else { &memory.table };
            start.checked_add(*length).is_some_and(|end| end <= region.len())
        }
        _ => true,
    };
    same("what the call does not name stays", &true, &right)
}

/// No reader is led past what was written, whatever the memory holds: a table has at most R rows, a net change at most 2 × R
/// entries, and the rows of a view lie in its part.
pub fn within_bounds(row_limit: u32, answer: &Answer) -> Result<(), String> {
    match answer {
        Answer::Table(Ok(TableAnswer { rows, .. }), _) => at_most("rows of a table", *rows, row_limit),
        Answer::NetChange(Ok(entries), ..) => at_most("entries of a net change", *entries, 2 * row_limit),
        Answer::View(Ok(View { rows, length, .. }), _) => {
            at_most("bytes of a view's rows", ROW_BYTES * *rows as usize, *length)
        }
        _ => Ok(()),
    }
}

fn at_most<T: PartialOrd + Debug>(what: &str, got: T, most: T) -> Result<(), String> {
    if got <= most {
        return Ok(());
    }
    Err(format!("{what}: {got:?}, at most {most:?} are promised"))
}

pub fn same<T: PartialEq + Debug>(what: &str, right: &T, got: &T) -> Result<(), String> {
    if right == got {
        return Ok(());
    }
    Err(format!("{what}: expected {right:?}\ngot {got:?}"))
}

/// Numbers and memory.
pub fn same_stores(right: &Store, got: &Store) -> Result<(), String> {
    same("numbers", &right.numbers, &got.numbers)?;
    same_memory(&right.memory, &got.memory)
}

fn same_memory(right: &Memory, got: &Memory) -> Result<(), String> {
    same_list("log", &right.log, &got.log)?;
    same_list("index", &right.index, &got.index)?;
    same_list("table", &right.table, &got.table)?;
    same_list("catalogue", &right.catalogue, &got.catalogue)?;
    same_list("areas", &right.areas, &got.areas)
}

/// Names the first place that differs.
pub fn same_list<T: PartialEq + Debug>(what: &str, right: &[T], got: &[T]) -> Result<(), String> {
    if right == got {
        return Ok(());
    }
    let place = right.iter().zip(got).position(|(x, y)| x != y).unwrap_or(right.len().min(got.len()));
    let (x, y) = (right.get(place), got.get(place));
    Err(format!(
        "{what}: {} elements expected, {} got, at {place} expected {x:?}, got {y:?}",
        right.len(),
        got.len()
    ))
}
