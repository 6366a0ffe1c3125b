//! The calls of the handle, and what it hands out: rows, entries, counts, the log to save and the count files are those of the
//! bytes, whichever way they are read.

use super::{entry_back, lend, on_handle, refusal_back};
use crate::calls::Call;
use crate::compare::{same, same_list, Answer};
use crate::layout::{Change, Row, CHANGE_BYTES, DELETION, INSERTION, ROW_BYTES};
use crate::log::log_length;
use crate::mark::MARKS;
use crate::odd_bytes::{OddBytes, STRANGE};
use crate::outset::{Entry, Place, Side};
use crate::position::Position;
use crate::store::{Numbers, Store, TableAnswer, View};
use crate::table::read_rows;
use yokefennel::{Mark, NetChange, Rows, Settings, Step, Table};

/// What the handle answers, or none where its types cannot ask so: with a wrong mark. `known` is what the calls under it
/// answered.
pub fn answer(store: &mut Store, call: Call, odd: usize, known: &Answer) -> Result<Option<Answer>, String> {
    match call {
        Call::Keep(_, mark) | Call::DropMarked(mark) if !MARKS.contains(&mark) => Ok(None),
        // half of the starts make the handle, the others begin again with one
        Call::Fresh(order, page, limit) if odd % 2 == 0 => {
            let settings = Settings { order, page, limit };
            Ok(Some(lend(store, odd, |_, lent| started(yokefennel::Store::fresh(settings, lent)))))
        }
        Call::Open if odd % 2 == 0 => {
            Ok(Some(lend(store, odd, |_, lent| started(yokefennel::Store::open(lent)))))
        }
        _ => {
            let (answer, handed_out) =
                on_handle(store, odd, |handle| (ask(handle, call, odd, known), HandedOut::by(handle)));
            handed_out?.compare(store)?;
            answer.map(Some)
        }
    }
}

/// The answer of a start, and the numbers of the handle that it makes.
fn started(handle: Result<yokefennel::Store, yokefennel::Refusal>) -> (Answer, yokefennel::Numbers) {
    match handle {
        Ok(handle) => (Answer::Change(Ok(())), handle.numbers()),
        Err(refusal) => (Answer::Change(Err(refusal_back(refusal))), yokefennel::Numbers::default()),
    }
}

fn ask(handle: &mut yokefennel::Store, call: Call, odd: usize, known: &Answer) -> Result<Answer, String> {
    let marked = |mark| Mark::try_from(mark).map_err(|wrong| format!("{wrong}"));
    Ok(match call {
        Call::Fresh(order, page, limit) => change(handle.start(Settings { order, page, limit })),
        Call::Open => change(handle.reopen()),
        Call::Insert(time, article, count) => change(handle.insert(time, article, count)),
        Call::Delete(time, article) => change(handle.delete(time, article)),
        Call::Update(time, article, count) => change(handle.update(time, article, count)),
        Call::Position(t) => {
            let position = handle.position(t).map_err(refusal_back);
            Answer::Position(
                position.map(|yokefennel::Position { page, requests }| Position { page, requests }),
            )
        }
        Call::Table(t, length) => return table(handle, t, length, odd),
        Call::View(t) => return view(handle, t, known),
        Call::NetChange(a, b, output, workspace) => {
            return net_change(handle, a, b, [output, workspace], odd)
        }
        Call::Units(t) => Answer::Units(handle.units(t).map_err(refusal_back)),
        Call::UnitsBetween(a, b) => Answer::UnitsBetween(handle.units_between(a, b).map_err(refusal_back)),
        Call::Keep(t, mark) => change(handle.keep(t, marked(mark)?)),
        Call::Drop(t) => change(handle.drop_file(t)),
        Call::DropMarked(mark) => Answer::Gone(handle.drop_marked(marked(mark)?).map_err(refusal_back)),
        Call::Audit => Answer::Audit(handle.audit()),
        Call::Damage(_) => Answer::None,
    })
}

fn change(answer: Result<(), yokefennel::Refusal>) -> Answer {
    Answer::Change(answer.map_err(refusal_back))
}

fn table(handle: &yokefennel::Store, t: u64, length: usize, odd: usize) -> Result<Answer, String> {
    let mut output = OddBytes::new(&vec![STRANGE; length], odd);
    let (answer, rows) = match handle.table(t, output.bytes()) {
        Ok(table) => {
            let rows = rows_read(table.rows())?;
            compare_counts(&table, &rows)?;
            let (side, requests_between) = (side(table.side), table.requests_between);
            (Ok(TableAnswer { rows: rows.len() as u32, side, requests_between }), rows)
        }
        Err(refusal) => (Err(refusal_back(refusal)), vec![]),
    };
    let output = output.back();
    same_list("rows of a table", &read_rows(&output, rows.len()), &rows)?;
    Ok(Answer::Table(answer, output))
}

/// The handle hands out the rows of the part; it does not tell where they begin.
fn view(handle: &yokefennel::Store, t: u64, known: &Answer) -> Result<Answer, String> {
    let (answer, rows) = match (handle.view(t), known) {
        (Ok(view), &Answer::View(Ok(View { start, length, .. }), _)) => {
            let place = match view.place {
                yokefennel::Place::Empty => Place::Empty,
                yokefennel::Place::File(file) => Place::File(file),
                yokefennel::Place::Current => Place::Current,
            };
            let rows = rows_read(view.rows())?;
            let (side, requests_between) = (side(view.side), view.requests_between);
            (Ok(View { place, rows: rows.len() as u32, start, length, side, requests_between }), rows)
        }
        (Ok(_), _) => return Err("a view by the handle alone".to_string()),
        (Err(refusal), _) => (Err(refusal_back(refusal)), vec![]),
    };
    Ok(Answer::View(answer, rows))
}

fn net_change(
    handle: &yokefennel::Store,
    a: u64,
    b: u64,
    lengths: [usize; 2],
    odd: usize,
) -> Result<Answer, String> {
    let [mut output, mut workspace] = lengths.map(|length| OddBytes::new(&vec![STRANGE; length], odd));
    let (answer, changes, bytes) = match handle.net_change(a, b, output.bytes(), workspace.bytes()) {
        Ok(change) => {
            let changes = changes_read(&change)?;
            (Ok(changes.len() as u32), changes, change.bytes().to_vec())
        }
        Err(refusal) => (Err(refusal_back(refusal)), vec![], vec![]),
    };
    let output = output.back();
    let named = &output[..CHANGE_BYTES * changes.len()];
    let right: Vec<Change> = named.chunks(CHANGE_BYTES).map(Change::read).collect();
    same_list("entries of a net change", &right, &changes)?;
    same_list("bytes of a net change", named, &bytes)?;
    Ok(Answer::NetChange(answer, output, workspace.back()))
}

/// What the handle hands out of its store between calls.
struct HandedOut {
    log: Vec<u8>,
    rows: Vec<Row>,
    files: Vec<Entry>,
}

impl HandedOut {
    fn by(handle: &yokefennel::Store) -> Result<HandedOut, String> {
        let files = handle.files().iter().map(entry_back).collect();
        Ok(HandedOut { log: handle.log().to_vec(), rows: rows_read(handle.rows())?, files })
    }

    /// The bytes to save, the rows and the files that the numbers count, as far as they are lent.
    fn compare(&self, Store { numbers, memory }: &Store) -> Result<(), String> {
        let Numbers { order, records, live, files, .. } = *numbers;
        let saved = if order == 0 { 0 } else { log_length(records).min(memory.log.len()) };
        let live = (live as usize).min(memory.table.len() / ROW_BYTES);
        let files = (files as usize).min(memory.catalogue.len());
        same_list("log to save", &memory.log[..saved], &self.log)?;
        same_list("current rows", &read_rows(&memory.table, live), &self.rows)?;
        same_list("files", &memory.catalogue[..files], &self.files)
    }
}

/// The rows as they come, from the front and from the back, and as many as are told.
fn rows_read(rows: Rows) -> Result<Vec<Row>, String> {
    let row = |yokefennel::Row { article, count }| Row { article, count };
    let read: Vec<Row> = rows.clone().map(row).collect();
    let mut back: Vec<Row> = rows.clone().rev().map(row).collect();
    back.reverse();
    same("rows told", &read.len(), &rows.len())?;
    same_list("rows from the back", &read, &back)?;
    Ok(read)
}

fn changes_read(change: &NetChange) -> Result<Vec<Change>, String> {
    let of = |step| match step {
        Step::Insert(row) => Change { kind: INSERTION, article: row.article, count: row.count },
        Step::Delete(row) => Change { kind: DELETION, article: row.article, count: row.count },
    };
    let read: Vec<Change> = change.steps().map(of).collect();
    let mut back: Vec<Change> = change.steps().rev().map(of).collect();
    back.reverse();
    same("entries told", &read.len(), &change.steps().len())?;
    same_list("entries from the back", &read, &back)?;
    Ok(read)
}

/// Each article of an ascending table is found with its count, and none beside it. Rows of a stranger may be in any order.
fn compare_counts(table: &Table, rows: &[Row]) -> Result<(), String> {
    if !rows.is_sorted_by(|row, next| row.article < next.article) {
        return Ok(());
    }
    for (i, row) in rows.iter().enumerate() {
        same("count of an article", &Some(row.count), &table.count(row.article))?;
        let beside = row.article.checked_add(1);
        if let Some(absent) =
            beside.filter(|beside| rows.get(i + 1).is_none_or(|next| next.article != *beside))
        {
            same("count of an absent article", &None, &table.count(absent))?;
        }
    }
    Ok(())
}

fn side(side: yokefennel::Side) -> Side {
    match side {
        yokefennel::Side::Earlier => Side::Earlier,
        yokefennel::Side::Later => Side::Later,
    }
}
