//! The proved store, through the product's own crate: what a maker's program is answered and handed is what is compared. Each
//! call is made twice on the same memory, once by the calls that the header declares (`raw`) and once by the handle `Store`,
//! and what the handle's readers hand out is held to the bytes, read here by 01's layout. The oracle uses nothing of this.

mod by_calls;
mod by_handle;
pub mod fewer_files;
mod owned;

pub use owned::Owned;

use crate::calls::Call;
use crate::compare::{same, same_stores, within_bounds, Answer};
use crate::odd_bytes::OddBytes;
use crate::outset::Entry;
use crate::store::{self, Memory, Refusal, Store};
use yokefennel::{Lent, Numbers};

/// What the proved store answers. Numbers and memory are then as it left them. Bytes are lent at places that depend on `odd`.
pub fn answer(store: &mut Store, call: Call, odd: usize) -> Result<Answer, String> {
    let mut by_handle = store.clone();
    let answer = lend(store, odd, |mut numbers, mut lent| {
        let answer = by_calls::answer(&mut numbers, &mut lent, call, odd);
        (answer, numbers)
    });
    within_bounds(store.numbers.row_limit, &answer)?;
    if let Some(got) = by_handle::answer(&mut by_handle, call, odd + 1, &answer)? {
        same("answer of the handle", &answer, &got)?;
        same_stores(store, &by_handle).map_err(|what| format!("by the handle, {what}"))?;
    }
    Ok(answer)
}

/// Calls of the handle on this store's memory. Numbers and memory are then as they left them.
pub fn on_handle<T>(store: &mut Store, odd: usize, calls: impl FnOnce(&mut yokefennel::Store) -> T) -> T {
    lend(store, odd, |numbers, lent| {
        let mut handle = yokefennel::Store::resume(numbers, lent);
        let answer = calls(&mut handle);
        (answer, handle.numbers())
    })
}

/// Lends a copy of this store's memory, its bytes at odd places, and takes up what the calls leave.
fn lend<T>(store: &mut Store, odd: usize, calls: impl FnOnce(Numbers, Lent) -> (T, Numbers)) -> T {
    let Memory { log, index, table, catalogue, areas } = &mut store.memory;
    let (mut odd_log, mut odd_table) = (OddBytes::new(log, odd), OddBytes::new(table, odd + 3));
    let mut odd_areas = OddBytes::new(areas, odd + 5);
    let mut entries: Vec<yokefennel::Entry> = catalogue.iter().map(entry_lent).collect();
    let lent = Lent {
        log: odd_log.bytes(),
        index,
        table: odd_table.bytes(),
        entries: &mut entries,
        areas: odd_areas.bytes(),
    };
    let (answer, numbers) = calls(numbers_lent(&store.numbers), lent);
    store.numbers = numbers_back(numbers);
    (*log, *table, *areas) = (odd_log.back(), odd_table.back(), odd_areas.back());
    *catalogue = entries.iter().map(entry_back).collect();
    answer
}

fn numbers_lent(numbers: &store::Numbers) -> Numbers {
    let store::Numbers { order, page_size: page, row_limit: limit, records, last, live, files } = *numbers;
    Numbers { order, page, limit, records, last, live, files }
}

fn numbers_back(numbers: Numbers) -> store::Numbers {
    let Numbers { order, page, limit, records, last, live, files } = numbers;
    store::Numbers { order, page_size: page, row_limit: limit, records, last, live, files }
}

fn entry_lent(entry: &Entry) -> yokefennel::Entry {
    let Entry { time, rows, mark } = *entry;
    yokefennel::Entry { time, rows, mark }
}

fn entry_back(entry: &yokefennel::Entry) -> Entry {
    let yokefennel::Entry { time, rows, mark } = *entry;
    Entry { time, rows, mark }
}

fn refusal_back(refusal: yokefennel::Refusal) -> Refusal {
    let record = match refusal {
        yokefennel::Refusal::WrongRecord { record } => Some(record),
        _ => None,
    };
    Refusal { question: refusal.question(), record }
}
