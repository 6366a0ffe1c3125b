//! Marks where they are asked about (02, wish 3): the questions of keep and of the marked deletion in their order, and the
//! audit.

mod common;

use common::{by_hand, refused};
use oracle::store::Store;

/// Times and marks of the files kept.
const FILES: [(u64, u32); 7] = [(10, 0), (20, 5), (30, 5), (35, 7), (40, 5), (50, 7), (60, 0)];

fn with_files(files: &[(u64, u32)]) -> Store {
    let mut store = by_hand();
    files.iter().for_each(|&(t, mark)| store.keep(t, mark).unwrap());
    store
}

/// The first no of 1, 12, 18, 14, 15, whichever of them are no together, and else the file is kept.
#[test]
fn keep_asks_in_order() {
    for (sound, full) in [(true, false), (true, true), (false, false), (false, true)] {
        for t in [0, 20, 30, 60, 61, u64::MAX] {
            for mark in [0, 5, 7, 1, 6, 5 + 256, 7 << 24, u32::MAX] {
                let mut store = with_files(&[(20, 5)]);
                if full {
                    store.memory.catalogue.truncate(1);
                }
                if !sound {
                    store.numbers.live = 5;
                }
                let expected = match () {
                    _ if !sound => 1,
                    _ if t > 60 => 12,
                    _ if ![0, 5, 7].contains(&mark) => 18,
                    _ if t == 0 || t == 20 => 14,
                    _ if full => 15,
                    _ => 0,
                };
                let before = store.clone();
                let answer = store.keep(t, mark);
                if expected == 0 {
                    assert_eq!((answer, store.kept().len()), (Ok(()), 2));
                    assert_eq!((store.kept()[1].time, store.kept()[1].mark), (t, mark));
                } else {
                    assert_eq!((refused(answer), &store), (expected, &before), "time {t}, mark {mark}");
                }
            }
        }
    }
}

/// The first no of 1 and 18, with files and without.
#[test]
fn marked_deletion_asks_in_order() {
    for files in [&FILES[..], &[]] {
        for mark in [0, 1, 4, 6, 8, 5 + 256, 7 + 65_536, 5 << 24, 7 | 1 << 31, u32::MAX] {
            let mut store = with_files(files);
            let before = store.clone();
            assert_eq!((refused(store.drop_marked(mark)), &store), (18, &before), "mark {mark}");
            store.numbers.live = 5;
            assert_eq!([mark, 5, 7].map(|mark| refused(store.drop_marked(mark))), [1; 3]);
            store.numbers.live = 2;
            assert_eq!(store, before);
        }
    }
}

/// Yes for each right mark in a used entry, also where no keep wrote it there; no for every other one.
#[test]
fn the_audit_of_used_entries() {
    for place in 0..FILES.len() {
        for mark in [0, 5, 7] {
            let mut store = with_files(&FILES);
            store.memory.catalogue[place].mark = mark;
            assert!(store.audit());
        }
        for mark in [1, 2, 3, 4, 6, 8, 9, 5 + 256, 256, 7 << 8, 5 << 24, 7 | 1 << 31, u32::MAX] {
            let mut store = with_files(&FILES);
            store.memory.catalogue[place].mark = mark;
            assert!(!store.audit(), "entry {place}, mark {mark}");
        }
    }
}

/// No for any mark in an unused entry; past the capacity there may be any.
#[test]
fn the_audit_of_unused_entries() {
    for place in FILES.len()..18 {
        for mark in [5, 7, 6, 1 << 31] {
            let mut store = with_files(&FILES);
            store.memory.catalogue[place].mark = mark;
            assert_eq!(store.audit(), place >= 16, "entry {place}, mark {mark}");
        }
    }
    // the capacity ends with the areas
    let mut store = with_files(&FILES);
    store.memory.areas.truncate(8 * 32 + 31);
    store.memory.catalogue[8].mark = 5;
    assert!(store.audit());
    store.memory.catalogue[7].mark = 5;
    assert!(!store.audit());
}
