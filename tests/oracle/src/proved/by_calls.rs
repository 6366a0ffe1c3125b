//! The calls as the header declares them. A refused call has zeros beside the question; anything that no call may answer
//! stops the program.

use crate::calls::Call;
use crate::compare::Answer;
use crate::layout::Row;
use crate::odd_bytes::{OddBytes, STRANGE};
use crate::outset::{Place, Side};
use crate::position::Position;
use crate::store::{Refusal, TableAnswer, View};
use crate::table::read_rows;
use yokefennel::raw::{
    self, Change, DropMarkedAnswer, NetChangeAnswer, PositionAnswer, UnitsAnswer, UnitsBetweenAnswer,
    ViewAnswer,
};
use yokefennel::{Lent, Numbers};

/// A call that takes the numbers and all five regions. Each is a slice that is borrowed as long as the call runs, which is
/// all that the calls ask.
macro_rules! on_all {
    ($call:ident, $numbers:expr, $lent:expr $(, $argument:expr)*) => {{
        let Lent { log, index, table, entries, areas } = $lent;
        unsafe {
            raw::$call(
                $numbers,
                log.as_mut_ptr(), log.len(), index.as_mut_ptr(), index.len(), table.as_mut_ptr(), table.len(),
                entries.as_mut_ptr(), entries.len(), areas.as_mut_ptr(), areas.len()
                $(, $argument)*
            )
        }
    }};
}

pub fn answer(numbers: &mut Numbers, lent: &mut Lent, call: Call, odd: usize) -> Answer {
    match call {
        Call::Fresh(order, page_size, row_limit) => {
            let answer = fresh(lent, order, page_size, row_limit);
            Answer::Change(take_up(numbers, answer))
        }
        Call::Open => {
            let answer = open(lent);
            Answer::Change(take_up(numbers, answer))
        }
        Call::Insert(time, article, count) => {
            let answer = on_all!(yk_insert, *numbers, lent, time, article, count);
            Answer::Change(take_up(numbers, answer))
        }
        Call::Delete(time, article) => {
            let answer = on_all!(yk_delete, *numbers, lent, time, article);
            Answer::Change(take_up(numbers, answer))
        }
        Call::Update(time, article, count) => {
            let answer = on_all!(yk_update, *numbers, lent, time, article, count);
            Answer::Change(take_up(numbers, answer))
        }
        Call::Position(t) => Answer::Position(position(on_all!(yk_position, *numbers, lent, t))),
        Call::Table(t, length) => {
            let mut output = OddBytes::new(&vec![STRANGE; length], odd);
            let out = output.bytes();
            let answer = on_all!(yk_table, *numbers, lent, t, out.as_mut_ptr(), out.len());
            Answer::Table(table(answer), output.back())
        }
        Call::View(t) => {
            let answer = view(on_all!(yk_view, *numbers, lent, t));
            let rows = answer.as_ref().map_or(vec![], |view| rows_of_view(lent, view));
            Answer::View(answer, rows)
        }
        Call::NetChange(a, b, output, workspace) => {
            let mut output = OddBytes::new(&vec![STRANGE; output], odd);
            let mut workspace = OddBytes::new(&vec![STRANGE; workspace], odd + 3);
            let (out, work) = (output.bytes(), workspace.bytes());
            let (out_start, work_start) = (out.as_mut_ptr(), work.as_mut_ptr());
            let answer =
                on_all!(yk_net_change, *numbers, lent, a, b, out_start, out.len(), work_start, work.len());
            Answer::NetChange(net_change(answer), output.back(), workspace.back())
        }
        Call::Units(t) => Answer::Units(units(on_all!(yk_units, *numbers, lent, t))),
        Call::UnitsBetween(a, b) => {
            Answer::UnitsBetween(units_between(on_all!(yk_units_between, *numbers, lent, a, b)))
        }
        Call::Keep(t, mark) => {
            let answer = on_all!(yk_keep, *numbers, lent, t, mark);
            Answer::Change(take_up(numbers, answer))
        }
        Call::Drop(t) => {
            let answer = on_all!(yk_drop, *numbers, lent, t);
            Answer::Change(take_up(numbers, answer))
        }
        Call::DropMarked(mark) => {
            let answer = on_all!(yk_drop_marked, *numbers, lent, mark);
            *numbers = answer.numbers;
            Answer::Gone(gone(answer))
        }
        Call::Audit => Answer::Audit(yes(on_all!(yk_audit, *numbers, lent))),
        Call::Damage(_) => Answer::None,
    }
}

/// The rows of the part that a view names, as far as it is lent.
fn rows_of_view(lent: &Lent, View { place, start, length, .. }: &View) -> Vec<Row> {
    let region = if let Place::File(_) = place { &*lent.areas } else { &*lent.table };
    let part = region.iter().skip(*start).take(*length).copied();
    read_rows(&part.collect::<Vec<u8>>(), usize::MAX)
}

// one region to a line, its length beside it
#[rustfmt::skip]
fn fresh(lent: &mut Lent, order: u16, page_size: u16, row_limit: u32) -> Change {
    let Lent { log, table, entries, areas, .. } = lent;
    unsafe {
        raw::yk_fresh(
            order, page_size, row_limit,
            log.as_mut_ptr(), log.len(),
            table.as_mut_ptr(), table.len(),
            entries.as_mut_ptr(), entries.len(),
            areas.as_ptr(), areas.len(),
        )
    }
}

#[rustfmt::skip]
fn open(lent: &mut Lent) -> Change {
    let Lent { log, index, table, entries, areas } = lent;
    unsafe {
        raw::yk_open(
            log.as_ptr(), log.len(),
            index.as_mut_ptr(), index.len(),
            table.as_mut_ptr(), table.len(),
            entries.as_mut_ptr(), entries.len(),
            areas.as_ptr(), areas.len(),
        )
    }
}

/// Goes on with the numbers of an answer.
fn take_up(numbers: &mut Numbers, answer: Change) -> Result<(), Refusal> {
    *numbers = answer.numbers;
    match answer {
        Change { question: 0, record: 0, .. } => Ok(()),
        Change { question: question @ 17, record, .. } => Err(Refusal { question, record: Some(record) }),
        Change { question: question @ (1..=16 | 18), record: 0, .. } => refused(question),
        other => panic!("{other:?} is no answer"),
    }
}

fn gone(answer: DropMarkedAnswer) -> Result<u32, Refusal> {
    match answer {
        DropMarkedAnswer { question: 0, gone, .. } => Ok(gone),
        DropMarkedAnswer { question: question @ (1 | 18), gone: 0, .. } => refused(question),
        other => panic!("{other:?} is no answer"),
    }
}

fn position(answer: PositionAnswer) -> Result<Position, Refusal> {
    match answer {
        PositionAnswer { question: 0, page, requests } => Ok(Position { page, requests }),
        PositionAnswer { question: question @ 1..=16, page: 0, requests: 0 } => refused(question),
        other => panic!("{other:?} is no answer"),
    }
}

fn table(answer: raw::TableAnswer) -> Result<TableAnswer, Refusal> {
    match answer {
        raw::TableAnswer { question: 0, rows, later, requests_between } => {
            Ok(TableAnswer { rows, side: side(later), requests_between })
        }
        raw::TableAnswer { question: question @ 1..=16, rows: 0, later: 0, requests_between: 0 } => {
            refused(question)
        }
        other => panic!("{other:?} is no answer"),
    }
}

fn view(answer: ViewAnswer) -> Result<View, Refusal> {
    let ViewAnswer { question, place, area, rows, later, requests_between, start, length } = answer;
    let place = match (question, place, area) {
        (0, 0, 0) => Place::Empty,
        (0, 1, area) => Place::File(area as usize),
        (0, 2, 0) => Place::Current,
        (1..=16, 0, 0) if (rows, later, requests_between, start, length) == (0, 0, 0, 0, 0) => {
            return refused(question)
        }
        _ => panic!("{answer:?} is no answer"),
    };
    Ok(View { place, rows, start, length, side: side(later), requests_between })
}

fn net_change(answer: NetChangeAnswer) -> Result<u32, Refusal> {
    match answer {
        NetChangeAnswer { question: 0, entries } => Ok(entries),
        NetChangeAnswer { question: question @ 1..=16, entries: 0 } => refused(question),
        other => panic!("{other:?} is no answer"),
    }
}

fn units(answer: UnitsAnswer) -> Result<u64, Refusal> {
    match answer {
        UnitsAnswer { question: 0, units } => Ok(units),
        UnitsAnswer { question: question @ 1..=16, units: 0 } => refused(question),
        other => panic!("{other:?} is no answer"),
    }
}

fn units_between(answer: UnitsBetweenAnswer) -> Result<i64, Refusal> {
    match answer {
        UnitsBetweenAnswer { question: 0, units } => Ok(units),
        UnitsBetweenAnswer { question: question @ 1..=16, units: 0 } => refused(question),
        other => panic!("{other:?} is no answer"),
    }
}

fn yes(answer: u8) -> bool {
    match answer {
        0 | 1 => answer == 1,
        other => panic!("{other} is neither yes nor no"),
    }
}

fn side(later: u8) -> Side {
    if yes(later) {
        Side::Later
    } else {
        Side::Earlier
    }
}

fn refused<T>(question: u8) -> Result<T, Refusal> {
    Err(Refusal { question, record: None })
}
