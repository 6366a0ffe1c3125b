//! Friday and Sunday marks (02, wish 3), by hand on 01's log: R = 4, so a count file's area takes 32 bytes.

mod common;

use common::{by_hand, fresh, memory_with, net_change, position, refused, strange, table, STRANGE};
use oracle::outset::{Entry, Place, Side};
use oracle::samples::log_by_hand;
use oracle::store::{Numbers, Store};
use std::mem::{offset_of, size_of};

/// Times and marks of the files of most tests below: a permanent one at both ends, neighbours with 5, and 7 among them.
const FILES: [(u64, u32); 7] = [(10, 0), (20, 5), (30, 5), (35, 7), (40, 5), (50, 7), (60, 0)];

fn with_files(files: &[(u64, u32)]) -> Store {
    let mut store = by_hand();
    files.iter().for_each(|&(t, mark)| store.keep(t, mark).unwrap());
    store
}

/// Times and marks of the files kept.
fn kept(store: &Store) -> Vec<(u64, u32)> {
    store.kept().iter().map(|entry| (entry.time, entry.mark)).collect()
}

/// Each file has the rows of its time in its area.
fn files_hold_their_tables(store: &Store) {
    for (i, entry) in store.kept().iter().enumerate() {
        let (rows, answer) = table(store, entry.time);
        assert_eq!(entry.rows, answer.rows);
        let mut bytes: Vec<u8> = rows
            .iter()
            .flat_map(|(article, count)| [article.to_le_bytes(), count.to_le_bytes()])
            .flatten()
            .collect();
        bytes.resize(32, 0);
        assert_eq!(store.memory.areas[32 * i..32 * (i + 1)], bytes);
    }
}

#[test]
fn keep_writes_the_mark() {
    for mark in [0, 5, 7] {
        let store = with_files(&[(20, mark)]);
        assert_eq!(store.kept(), [Entry { time: 20, rows: 2, mark }]);
        assert!(store.audit());
    }
}

/// However they were kept, the entries ascend by time, each with its own mark.
#[test]
fn marks_move_up_with_their_files() {
    let orders: [[usize; 7]; 3] = [[0, 1, 2, 3, 4, 5, 6], [6, 5, 4, 3, 2, 1, 0], [3, 0, 6, 1, 5, 2, 4]];
    for order in orders {
        let store = with_files(&order.map(|i| FILES[i]));
        assert_eq!(kept(&store), FILES);
        files_hold_their_tables(&store);
        assert_eq!(store.memory, with_files(&FILES).memory);
    }
}

/// "Dropping by time still works on any mark."
#[test]
fn marks_move_down_when_one_is_dropped() {
    for place in 0..FILES.len() {
        let mut store = with_files(&FILES);
        store.drop_file(FILES[place].0).unwrap();
        let mut left = FILES.to_vec();
        left.remove(place);
        assert_eq!(kept(&store), left);
        files_hold_their_tables(&store);
        assert_eq!(store.memory.catalogue[6], Entry::default());
        assert!(store.memory.areas[6 * 32..7 * 32].iter().all(|byte| *byte == 0));
        assert!(store.audit());
    }
}

/// Two neighbours and a third go; 7 does not go along.
#[test]
fn friday() {
    let mut store = with_files(&FILES);
    assert_eq!(store.drop_marked(5), Ok(3));
    assert_eq!(kept(&store), [(10, 0), (35, 7), (50, 7), (60, 0)]);
    assert_eq!(store.numbers, Numbers { files: 4, ..with_files(&FILES).numbers });
    files_hold_their_tables(&store);
    assert!(store.audit());
}

/// 7 takes no 5 along, though it is above it.
#[test]
fn sunday() {
    let mut store = with_files(&FILES);
    assert_eq!(store.drop_marked(7), Ok(2));
    assert_eq!(kept(&store), [(10, 0), (20, 5), (30, 5), (40, 5), (60, 0)]);
    files_hold_their_tables(&store);
    assert!(store.audit());
    // and then Friday's
    assert_eq!(store.drop_marked(5), Ok(3));
    assert_eq!(kept(&store), [(10, 0), (60, 0)]);
    assert_eq!(store.drop_marked(5), Ok(0));
    assert_eq!(store.drop_marked(7), Ok(0));
    assert!(store.audit());
}

/// Every byte of a deletion: of three files the first two go, and the third moves down by two.
#[test]
fn two_neighbours_go_and_both_areas_are_zero() {
    let mut store = with_files(&[(20, 5), (30, 5), (45, 7)]);
    let before = store.clone();
    assert_eq!(store.drop_marked(5), Ok(2));
    let mut expected = before.clone();
    expected.numbers.files = 1;
    expected.memory.catalogue[0] = Entry { time: 45, rows: 1, mark: 7 };
    expected.memory.catalogue[1..3].fill(Entry { time: 0, rows: 0, mark: 0 });
    expected.memory.areas[..96].fill(0);
    expected.memory.areas[..8].copy_from_slice(&[7, 0, 0, 0, 44, 0, 0, 0]);
    assert_eq!(store, expected);
    // what lay behind the three files was a stranger's and is so still
    assert!(store.memory.areas[96..].iter().all(|byte| *byte == STRANGE));
}

/// One of two, whichever it is: the other is first, and one entry and one area are set free.
#[test]
fn one_goes() {
    for (files, left, row) in [
        ([(20, 5), (45, 0)], Entry { time: 45, rows: 1, mark: 0 }, [7, 0, 0, 0, 44, 0, 0, 0]),
        ([(45, 7), (50, 5)], Entry { time: 45, rows: 1, mark: 7 }, [7, 0, 0, 0, 44, 0, 0, 0]),
    ] {
        let mut store = with_files(&files);
        let mut expected = store.clone();
        assert_eq!(store.drop_marked(5), Ok(1));
        expected.numbers.files = 1;
        expected.memory.catalogue[..2].copy_from_slice(&[left, Entry::default()]);
        expected.memory.areas[..64].fill(0);
        expected.memory.areas[..8].copy_from_slice(&row);
        assert_eq!(store, expected);
    }
}

#[test]
fn all_go() {
    let mut store = with_files(&[(20, 7), (30, 7), (60, 7)]);
    assert_eq!(store.drop_marked(7), Ok(3));
    let mut expected = by_hand();
    expected.memory.areas[..96].fill(0);
    assert_eq!(store, expected);
}

/// "None is a fine answer", and then nothing changes: without a file, and with files of the other marks only.
#[test]
fn none_goes() {
    for (files, mark) in [(&[][..], 5), (&[], 7), (&[(20, 0), (30, 5)], 7), (&[(20, 7), (60, 0)], 5)] {
        let mut store = with_files(files);
        let before = store.clone();
        assert_eq!(store.drop_marked(mark), Ok(0));
        assert_eq!(store, before);
    }
    // no request, and no capacity either
    let mut store = fresh(3, 2, 4);
    assert_eq!([store.drop_marked(5), store.drop_marked(7)], [Ok(0); 2]);
    store.memory.areas.truncate(31);
    assert_eq!([store.drop_marked(5), store.drop_marked(7)], [Ok(0); 2]);
    assert!(store.audit());
}

/// Sixteen files, more entries and areas lent: those past the capacity are never touched.
#[test]
fn sixteen_files() {
    let marks = [5, 0, 5, 7, 5, 5, 0, 7];
    let files: Vec<(u64, u32)> = (0..16).map(|k| (k + 1, marks[k as usize % 8])).collect();
    let mut store = with_files(&files);
    assert_eq!(store.drop_marked(5), Ok(8));
    let left: Vec<(u64, u32)> = files.iter().copied().filter(|(_, mark)| *mark != 5).collect();
    assert_eq!(kept(&store), left);
    assert!(store.memory.catalogue[8..16].iter().all(|entry| *entry == Entry::default()));
    assert!(store.memory.areas[8 * 32..16 * 32].iter().all(|byte| *byte == 0));
    assert_eq!(store.memory.catalogue[16..], strange().catalogue[16..]);
    assert_eq!(store.memory.areas[16 * 32..], strange().areas[16 * 32..]);
    assert!(store.audit());
    // as many can be kept again
    (1..=16).for_each(|t| assert!(store.is_kept(t) || store.keep(t, 0).is_ok()));
    assert_eq!(refused(store.keep(17, 0)), 15);
}

/// The time of a file that went can be kept again, with another mark.
#[test]
fn kept_again_with_another_mark() {
    let mut store = with_files(&[(20, 5)]);
    assert_eq!(refused(store.keep(20, 0)), 14);
    assert_eq!(store.drop_marked(5), Ok(1));
    assert_eq!(refused(store.drop_file(20)), 16);
    store.keep(20, 7).unwrap();
    assert_eq!(kept(&store), [(20, 7)]);
    assert_eq!([store.drop_marked(5), store.drop_marked(7)], [Ok(0), Ok(1)]);
}

/// A request leaves the marks, an opening and a fresh store zero them.
#[test]
fn starts_zero_the_marks() {
    let mut store = with_files(&FILES);
    store.insert(70, 1, 1).unwrap();
    assert_eq!(kept(&store), FILES);
    store.open().unwrap();
    let zero = Entry { time: 0, rows: 0, mark: 0 };
    assert!(store.memory.catalogue[..16].iter().all(|entry| *entry == zero));
    assert_eq!(store.drop_marked(5), Ok(0));
    assert!(store.audit());

    let mut store = with_files(&FILES);
    store.fresh(3, 2, 4).unwrap();
    assert!(store.memory.catalogue[..16].iter().all(|entry| *entry == zero));
    assert_eq!(store.memory.catalogue[16..], strange().catalogue[16..]);

    // at 17 too
    let mut store = Store::over(memory_with(&log_by_hand()));
    store.memory.log[24 + 4] ^= 1;
    assert_eq!(store.open().unwrap_err().question, 17);
    assert!(store.memory.catalogue[..16].iter().all(|entry| *entry == zero));
    assert_eq!(store.memory.catalogue[16..], strange().catalogue[16..]);
}

/// "No table may differ because a marked file has gone": answers before and after, whichever mark goes.
#[test]
fn answers_stay() {
    for mark in [5, 7] {
        let before = with_files(&FILES);
        let mut after = before.clone();
        after.drop_marked(mark).unwrap();
        for t in (0..=62).chain([u64::MAX]) {
            assert_eq!(table(&before, t).0, table(&after, t).0);
            assert_eq!(position(&before, t), position(&after, t));
            assert_eq!(before.units(t), after.units(t));
            for other in [0, 20, 45, 61] {
                assert_eq!(net_change(&before, t, other), net_change(&after, t, other));
                assert_eq!(before.units_between(t, other), after.units_between(t, other));
            }
        }
    }
}

/// With 10 to go on Friday and 40 on Sunday, 30 starts from 40, as with permanent files; then from 0, with 10 dropped.
#[test]
fn the_outset_is_chosen_whatever_the_marks() {
    let used = |store: &Store, t| {
        let view = store.view(t).unwrap();
        (view.place, view.side, view.requests_between)
    };
    for marks in [[0, 0], [5, 7], [7, 5], [0, 5], [5, 0], [7, 7]] {
        let store = with_files(&[(10, marks[0]), (40, marks[1])]);
        // 3 and 1; none and 4; 1 and 3
        assert_eq!(used(&store, 30), (Place::File(1), Side::Later, 1));
        assert_eq!(used(&store, 10), (Place::File(0), Side::Earlier, 0));
        assert_eq!(used(&store, 20), (Place::File(0), Side::Earlier, 1));
    }
    // a file at the last time goes before the current table
    assert_eq!(used(&with_files(&[(60, 5)]), 59), (Place::File(0), Side::Later, 2));
    // with 40 gone: 3 and 4; with 10 gone too: 4 and 4
    let mut store = with_files(&[(10, 5), (40, 7)]);
    store.drop_marked(7).unwrap();
    assert_eq!(used(&store, 30), (Place::File(0), Side::Earlier, 3));
    store.drop_marked(5).unwrap();
    assert_eq!(used(&store, 30), (Place::Empty, Side::Earlier, 4));
}

/// The layout that C has.
#[test]
fn an_entry_takes_16_bytes() {
    assert_eq!(size_of::<Entry>(), 16);
    assert_eq!([offset_of!(Entry, time), offset_of!(Entry, rows), offset_of!(Entry, mark)], [0, 8, 12]);
}
