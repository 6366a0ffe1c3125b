//! Lists of drops and marked deletions (02, wish 9), which files go by them, and the store that is then left, stated a
//! second time and without a call of the store.

use oracle::calls::Call;
use oracle::outset::Entry;
use oracle::store::{Refusal, Store};
use std::collections::BTreeSet;

/// Makes a deletion; how many files went.
pub fn delete(store: &mut Store, call: Call) -> Result<u32, Refusal> {
    match call {
        Call::Drop(t) => store.drop_file(t).map(|()| 1),
        Call::DropMarked(mark) => store.drop_marked(mark),
        _ => panic!("{call:?} deletes no file"),
    }
}

/// The store after these deletions, those that are refused among them.
pub fn after(before: &Store, calls: &[Call]) -> Store {
    let mut store = before.clone();
    for &call in calls {
        let _ = delete(&mut store, call);
    }
    store
}

/// The times of the files that go, in whatever order the calls are made.
pub fn gone(before: &Store, calls: &[Call]) -> BTreeSet<u64> {
    let goes = |entry: &&Entry| {
        calls.contains(&Call::Drop(entry.time))
            || entry.mark == 5 && calls.contains(&Call::DropMarked(5))
            || entry.mark == 7 && calls.contains(&Call::DropMarked(7))
    };
    before.kept().iter().filter(goes).map(|entry| entry.time).collect()
}

/// Numbers and memory as they were, but the files that stay in front, and zeros up to the former count of files.
pub fn left(before: &Store, gone: &BTreeSet<u64>) -> Store {
    let mut store = before.clone();
    let (entries, areas) = (&mut store.memory.catalogue, &mut store.memory.areas);
    let (files, area) = (before.numbers.files as usize, 8 * before.numbers.row_limit as usize);
    entries[..files].fill(Entry { time: 0, rows: 0, mark: 0 });
    areas[..files * area].fill(0);
    let stay: Vec<usize> = (0..files).filter(|&i| !gone.contains(&before.memory.catalogue[i].time)).collect();
    for (place, &from) in stay.iter().enumerate() {
        entries[place] = before.memory.catalogue[from];
        let bytes = &before.memory.areas[from * area..(from + 1) * area];
        areas[place * area..(place + 1) * area].copy_from_slice(bytes);
    }
    store.numbers.files = stay.len() as u32;
    store
}
