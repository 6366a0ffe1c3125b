//! The order of deletions (02, wish 9), by hand on 01's log: "From one state of the store, drops and marked deletions in any
//! order, with no keep between, end in the same catalogue and areas when the same files go." R = 4, so a count file's area
//! takes 32 bytes.

mod common;

use common::deletions::{after, delete, gone, left};
use common::{by_hand, refused, strange};
use oracle::calls::Call;
use oracle::outset::Entry;
use oracle::store::{Numbers, Store};
use std::collections::BTreeMap;

/// Times and marks: neighbours with 5, and two with 7 that are none.
const FILES: [(u64, u32); 6] = [(10, 0), (20, 5), (30, 5), (40, 7), (45, 0), (60, 7)];

const ORDERS: [[usize; 3]; 6] = [[0, 1, 2], [0, 2, 1], [1, 0, 2], [1, 2, 0], [2, 0, 1], [2, 1, 0]];

fn with_files() -> Store {
    let mut store = by_hand();
    FILES.iter().for_each(|&(t, mark)| store.keep(t, mark).unwrap());
    store
}

/// Two drops and a marked deletion that takes two neighbours. 40 and 60 stay, and four entries and areas are set free.
#[test]
fn three_deletions_in_all_six_orders() {
    let calls = [(Call::Drop(10), 1), (Call::DropMarked(5), 2), (Call::Drop(45), 1)];
    // behind the six files: zero entries up to the capacity of 16, else what a stranger left
    let mut catalogue = strange().catalogue;
    catalogue[..16].fill(Entry { time: 0, rows: 0, mark: 0 });
    catalogue[0] = Entry { time: 40, rows: 1, mark: 7 };
    catalogue[1] = Entry { time: 60, rows: 2, mark: 7 };
    let mut areas = strange().areas;
    areas[..6 * 32].fill(0);
    areas[..8].copy_from_slice(&[7, 0, 0, 0, 44, 0, 0, 0]);
    areas[32..48].copy_from_slice(&[7, 0, 0, 0, 44, 0, 0, 0, 9, 0, 0, 0, 6, 0, 0, 0]);
    let numbers = Numbers { order: 3, page_size: 2, row_limit: 4, records: 8, last: 60, live: 2, files: 2 };
    for order in ORDERS {
        let mut store = with_files();
        for (call, many) in order.map(|i| calls[i]) {
            assert_eq!(delete(&mut store, call), Ok(many));
        }
        assert_eq!(store.memory.catalogue, catalogue, "{order:?}");
        assert_eq!(store.memory.areas, areas, "{order:?}");
        assert_eq!(store.numbers, numbers, "{order:?}");
        let before = with_files().memory;
        let Store { memory, .. } = &store;
        assert!(memory.log == before.log && memory.index == before.index && memory.table == before.table);
        assert!(store.audit());
    }
}

/// A drop before the marked deletion lets its file go, one after it is refused; the end is the same.
#[test]
fn refused_in_one_order_only() {
    let mut drop_first = with_files();
    assert_eq!(drop_first.drop_file(30), Ok(()));
    assert_eq!(drop_first.drop_marked(5), Ok(1));
    let mut drop_last = with_files();
    assert_eq!(drop_last.drop_marked(5), Ok(2));
    assert_eq!(refused(drop_last.drop_file(30)), 16);
    assert_eq!(drop_first, drop_last);
}

/// The same files by other calls, and with refused ones between: 20 and 30 go, then all four with a mark.
#[test]
fn by_other_calls() {
    let (drop, marked) = (Call::Drop, Call::DropMarked);
    let friday = after(&with_files(), &[marked(5)]);
    assert_eq!(after(&with_files(), &[drop(20), drop(30)]), friday);
    assert_eq!(after(&with_files(), &[drop(30), drop(20)]), friday);
    assert_eq!(
        after(&with_files(), &[marked(0), drop(30), drop(30), marked(6), marked(5), drop(20)]),
        friday
    );
    assert_ne!(after(&with_files(), &[drop(20), drop(40)]), friday);
    let both = after(&with_files(), &[marked(5), marked(7)]);
    assert_eq!(after(&with_files(), &[marked(7), marked(5)]), both);
    assert_eq!(after(&with_files(), &[drop(60), drop(20), marked(12), drop(40), drop(50), drop(30)]), both);
    assert_eq!(both.kept().iter().map(|entry| entry.time).collect::<Vec<_>>(), [10, 45]);
}

/// Adds the store that each longer list ends in to those that hold the same times. They are all one.
fn lists(before: &Store, store: &Store, made: &[Call], ends: &mut BTreeMap<Vec<u64>, (Store, u32)>) {
    assert_eq!(*store, left(before, &gone(before, made)), "{made:?}");
    let held = store.kept().iter().map(|entry| entry.time).collect();
    let (first, often) = ends.entry(held).or_insert_with(|| (store.clone(), 0));
    assert_eq!(store, first, "{made:?}");
    *often += 1;
    if made.len() == 4 {
        return;
    }
    let drops = FILES.iter().map(|file| Call::Drop(file.0)).chain([Call::Drop(50)]);
    for call in drops.chain([0, 5, 6, 7].map(Call::DropMarked)) {
        let mut store = store.clone();
        let _ = delete(&mut store, call);
        lists(before, &store, &[made, &[call]].concat(), ends);
    }
}

/// Of each file, one that is not kept, both marks and two that are refused, every list of up to four.
#[test]
fn every_list_of_up_to_four_deletions() {
    let (before, mut ends) = (with_files(), BTreeMap::new());
    lists(&before, &before, &[], &mut ends);
    // four deletions leave any of the 64 sets of files: all six go by two drops and both marks
    assert_eq!(ends.len(), 64);
    assert_eq!(ends.values().map(|(_, often)| often).sum::<u32>(), 1 + 11 + 121 + 1_331 + 14_641);
    // 20 and 30 gone and no other: by the mark, by drops, or by both, in many lists
    assert!(ends[&vec![10, 40, 45, 60]].1 > 100);
}
