//! A time after the last request (02, wish 2), by hand. 01's log ends at 60, by eight requests on four pages, with rows 7:44
//! and 9:6.

mod common;

use common::{by_hand, fresh, net_change, opened_with, outset, position, refused, rows, table, STRANGE};
use oracle::layout::{DELETION, INSERTION};
use oracle::outset::{Entry, Place, Side};
use oracle::samples::Request::Insert;
use oracle::store::{Store, TableAnswer, View};
use oracle::table::table_bytes;

/// The next time, one far past the last request, and the last there is.
const LATE: [u64; 3] = [61, 1 << 63, u64::MAX];

fn kept(mut store: Store, times: &[u64]) -> Store {
    times.iter().for_each(|&t| store.keep(t, 0).unwrap());
    store
}

fn units(store: &Store, t: u64) -> u64 {
    store.units(t).unwrap()
}

fn between(store: &Store, a: u64, b: u64) -> i64 {
    store.units_between(a, b).unwrap()
}

/// A view, with R = 4: a count file's area takes 32 bytes.
fn view(place: Place, rows: u32, side: Side, requests_between: u32) -> View {
    let start = if let Place::File(i) = place { 32 * i } else { 0 };
    View { place, rows, start, length: 8 * rows as usize, side, requests_between }
}

#[test]
fn position_is_on_the_last_page_with_all_requests() {
    let store = by_hand();
    for t in LATE {
        assert_eq!(position(&store, t), (3, 8));
    }
}

#[test]
fn table_is_that_of_60() {
    let store = by_hand();
    for t in LATE {
        let mut output = [STRANGE; 40];
        let answer = store.table(t, &mut output).unwrap();
        assert_eq!(answer, TableAnswer { rows: 2, side: Side::Later, requests_between: 0 });
        let mut expected = [STRANGE; 40];
        expected[..32].fill(0);
        expected[..16].copy_from_slice(&[7, 0, 0, 0, 44, 0, 0, 0, 9, 0, 0, 0, 6, 0, 0, 0]);
        assert_eq!(output, expected);
    }
}

#[test]
fn view_is_the_current_table() {
    let store = by_hand();
    for t in LATE {
        let answer = store.view(t).unwrap();
        assert_eq!(answer, view(Place::Current, 2, Side::Later, 0));
        assert_eq!(store.view_bytes(&answer), [7, 0, 0, 0, 44, 0, 0, 0, 9, 0, 0, 0, 6, 0, 0, 0]);
    }
}

/// "A count file at the last time goes before the current table" (01), and it is the earlier outset too.
#[test]
fn a_file_of_60_goes_first() {
    let store = kept(by_hand(), &[60]);
    for t in LATE {
        assert_eq!(store.view(t).unwrap(), view(Place::File(0), 2, Side::Earlier, 0));
        assert_eq!(outset(&store, t), (Side::Earlier, 0));
        assert_eq!(table(&store, t).0, [(7, 44), (9, 6)]);
    }
    let mut store = kept(store, &[20, 45]);
    for t in LATE {
        assert_eq!(store.view(t).unwrap(), view(Place::File(2), 2, Side::Earlier, 0));
    }
    store.drop_file(60).unwrap();
    for t in LATE {
        assert_eq!(store.view(t).unwrap(), view(Place::Current, 2, Side::Later, 0));
    }
}

/// Two requests lie between 50 or 59 and 60, none between 60 and the current table. Nearness in time does not count.
#[test]
fn a_file_before_60_does_not_go_first() {
    for store in [kept(by_hand(), &[50]), kept(by_hand(), &[59]), kept(by_hand(), &[20, 59])] {
        for t in LATE {
            assert_eq!(store.view(t).unwrap(), view(Place::Current, 2, Side::Later, 0));
            assert_eq!(outset(&store, t), (Side::Later, 0));
        }
    }
}

#[test]
fn units_are_those_of_60() {
    let store = by_hand();
    for t in LATE {
        assert_eq!(units(&store, t), 50);
    }
}

/// Totals 0, 62, 44 and 50 of 0, 20, 45 and 60.
#[test]
fn units_between_by_either_time() {
    let store = by_hand();
    for t in LATE {
        assert_eq!([0, 20, 45, 60].map(|a| between(&store, a, t)), [50, -12, 6, 0]);
        assert_eq!([0, 20, 45, 60].map(|b| between(&store, t, b)), [-50, 12, -6, 0]);
        assert_eq!(LATE.map(|b| between(&store, t, b)), [0; 3]);
    }
}

#[test]
fn net_change_by_either_time() {
    let store = by_hand();
    for t in LATE {
        let from_20 = [(DELETION, 3, 12), (DELETION, 7, 50), (INSERTION, 7, 44), (INSERTION, 9, 6)];
        assert_eq!(net_change(&store, 20, t), from_20);
        let to_20 = [(INSERTION, 3, 12), (DELETION, 7, 44), (INSERTION, 7, 50), (DELETION, 9, 6)];
        assert_eq!(net_change(&store, t, 20), to_20);
        assert_eq!(net_change(&store, 45, t), [(INSERTION, 9, 6)]);
        assert_eq!(net_change(&store, t, 45), [(DELETION, 9, 6)]);
        assert_eq!((net_change(&store, 60, t), net_change(&store, t, 60)), (vec![], vec![]));
        assert_eq!(LATE.map(|b| net_change(&store, t, b).len()), [0; 3]);
    }
}

/// Table a, then table b, whichever of them is late.
#[test]
fn net_change_leaves_both_tables_in_the_workspace() {
    let store = by_hand();
    let [of_20, of_60] = [&[(3, 12), (7, 50)], &[(7, 44), (9, 6)]].map(|list| table_bytes(4, &rows(list)));
    for t in LATE {
        let cases = [(20, t, [&of_20, &of_60]), (t, 20, [&of_60, &of_20]), (t, t, [&of_60, &of_60])];
        for (a, b, tables) in cases {
            let (mut output, mut workspace) = ([STRANGE; 96], [STRANGE; 64]);
            store.net_change(a, b, &mut output, &mut workspace).unwrap();
            assert_eq!(workspace, tables.map(|bytes| bytes.as_slice()).concat().as_slice());
        }
    }
}

/// With no record every time is answered as time 0.
#[test]
fn a_store_without_a_record() {
    let mut store = fresh(3, 2, 4);
    for t in [0, 1, 61, u64::MAX] {
        assert_eq!(position(&store, t), (0, 0));
        let mut output = [STRANGE; 33];
        let answer = store.table(t, &mut output).unwrap();
        assert_eq!(answer, TableAnswer { rows: 0, side: Side::Earlier, requests_between: 0 });
        assert!(output[..32].iter().all(|byte| *byte == 0) && output[32] == STRANGE);
        assert_eq!(store.view(t).unwrap(), view(Place::Empty, 0, Side::Earlier, 0));
        assert_eq!(units(&store, t), 0);
        for other in [0, 1, u64::MAX] {
            assert_eq!((between(&store, t, other), net_change(&store, t, other)), (0, vec![]));
        }
    }
    let before = store.clone();
    assert_eq!([0, 1, u64::MAX].map(|t| refused(store.keep(t, 0))), [14, 12, 12]);
    assert_eq!(store, before);
}

/// "Keeping a file for such a time remains refused by 12, because a later request could make it wrong."
#[test]
fn a_keep_waits_for_its_time() {
    let mut store = by_hand();
    let before = store.clone();
    assert_eq!(LATE.map(|t| refused(store.keep(t, 0))), [12; 3]);
    assert_eq!(store, before);
    store.delete(61, 9).unwrap();
    assert_eq!([62, u64::MAX].map(|t| refused(store.keep(t, 0))), [12; 2]);
    store.keep(61, 0).unwrap();
    assert_eq!(store.kept(), [Entry { time: 61, rows: 1, mark: 0 }]);
    assert_eq!(store.view(61).unwrap(), view(Place::File(0), 1, Side::Earlier, 0));
    assert_eq!(store.view(62).unwrap(), view(Place::File(0), 1, Side::Earlier, 0));
    assert!(store.audit());
}

/// 12 before 14 and 15: a late time though the last one is kept, and no space for another file.
#[test]
fn a_late_keep_is_refused_before_it_is_looked_up() {
    let mut store = kept(by_hand(), &[60]);
    assert_eq!(LATE.map(|t| refused(store.keep(t, 0))), [12; 3]);
    assert_eq!(refused(store.keep(60, 0)), 14);
    store.memory.catalogue.truncate(1);
    assert_eq!(LATE.map(|t| refused(store.keep(t, 0))), [12; 3]);
    // a drop asks only whether the time is kept
    assert_eq!(LATE.map(|t| refused(store.drop_file(t))), [16; 3]);
}

/// Nothing of an answer is remembered: with further requests a time is late still, then the last, then an earlier one.
#[test]
fn a_further_request_changes_the_answer() {
    let mut store = by_hand();
    assert_eq!((position(&store, 65), units(&store, 65)), ((3, 8), 50));
    store.insert(62, 1, 9).unwrap();
    assert_eq!((position(&store, 65), units(&store, 65)), ((4, 9), 59));
    assert_eq!(table(&store, 65).0, [(1, 9), (7, 44), (9, 6)]);
    assert_eq!(store.view(65).unwrap(), view(Place::Current, 3, Side::Later, 0));
    assert_eq!(net_change(&store, 60, 65), [(INSERTION, 1, 9)]);
    store.delete(65, 7).unwrap();
    assert_eq!((position(&store, 65), units(&store, 65)), ((4, 10), 15));
    assert_eq!(table(&store, 65).0, [(1, 9), (9, 6)]);
    store.update(70, 1, 8).unwrap();
    assert_eq!((position(&store, 65), units(&store, 65)), ((4, 10), 15));
    assert_eq!(table(&store, 65).0, [(1, 9), (9, 6)]);
    assert_eq!(store.view(65).unwrap(), view(Place::Current, 2, Side::Later, 2));
    assert_eq!((between(&store, 65, 71), net_change(&store, 70, 71)), (-1, vec![]));
}

/// Times up to the last are answered as before, and not as the last.
#[test]
fn earlier_times_are_answered_as_before() {
    let store = by_hand();
    assert_eq!([0, 10, 59, 60, 61].map(|t| position(&store, t)), [(0, 0), (0, 1), (2, 6), (3, 8), (3, 8)]);
    assert_eq!([0, 10, 59, 60, 61].map(|t| units(&store, t)), [0, 50, 49, 50, 50]);
    assert_eq!(table(&store, 59).0, [(7, 44), (9, 5)]);
    assert_eq!(outset(&store, 59), (Side::Later, 2));
    assert_eq!(net_change(&store, 59, 61), [(DELETION, 9, 5), (INSERTION, 9, 6)]);
}

/// Where 12 was asked between 1 and 13, 13 now comes next.
#[test]
fn questions_of_a_late_time() {
    let mut store = by_hand();
    let (mut output, mut workspace) = ([STRANGE; 96], [STRANGE; 64]);
    for t in LATE {
        assert_eq!(refused(store.table(t, &mut output[..31])), 13);
        for [a, b] in [[t, 60], [60, t], [t, t]] {
            assert_eq!(refused(store.net_change(a, b, &mut output[..95], &mut workspace)), 13);
            assert_eq!(refused(store.net_change(a, b, &mut output, &mut workspace[..63])), 13);
        }
    }
    store.numbers.last = 61;
    for t in [61, 62, u64::MAX] {
        assert_eq!([refused(store.position(t)), refused(store.view(t)), refused(store.units(t))], [1; 3]);
        assert_eq!([refused(store.units_between(t, 0)), refused(store.units_between(0, t))], [1; 2]);
        assert_eq!(refused(store.table(t, &mut output[..31])), 1);
        assert_eq!(refused(store.net_change(t, t, &mut output[..95], &mut workspace[..63])), 1);
        assert_eq!(refused(store.keep(t, 0)), 1);
    }
    assert!(output.iter().chain(&workspace).all(|byte| *byte == STRANGE));
}

/// After 2^64 - 2 there is one late time, after 2^64 - 1 none.
#[test]
fn the_last_times_there_are() {
    let end = u64::MAX;
    let mut store = opened_with(3, 2, 4, &[Insert(end - 1, 7, 50)]);
    assert_eq!([end - 2, end - 1, end].map(|t| position(&store, t)), [(0, 0), (0, 1), (0, 1)]);
    assert_eq!([end - 2, end - 1, end].map(|t| units(&store, t)), [0, 50, 50]);
    assert_eq!(refused(store.keep(end, 0)), 12);
    store.insert(end, 3, 12).unwrap();
    assert_eq!([end - 1, end].map(|t| position(&store, t)), [(0, 1), (0, 2)]);
    assert_eq!([end - 1, end].map(|t| units(&store, t)), [50, 62]);
    store.keep(end, 0).unwrap();
    assert_eq!(store.view(end).unwrap(), view(Place::File(0), 2, Side::Earlier, 0));
}
