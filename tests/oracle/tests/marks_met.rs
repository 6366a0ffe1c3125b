//! What random lists meet of the marks (02, wish 3): the kinds that each call counts as.

mod common;

use common::by_hand;
use oracle::calls::{Call, Marks};
use oracle::store::Store;

/// 01's log with files to go on Friday, Friday, Sunday and Friday.
fn with_files() -> Store {
    let mut store = by_hand();
    [(20, 5), (30, 5), (40, 7), (50, 5)].iter().for_each(|&(t, mark)| store.keep(t, mark).unwrap());
    store
}

/// The kinds of a call, by name.
fn kinds(store: &Store, call: Call) -> Vec<&'static str> {
    let mut marks = Marks::default();
    marks.note(&call, store);
    marks.all().into_iter().filter(|(_, often)| *often > 0).map(|([_, kind], _)| kind).collect()
}

#[test]
fn of_keeps_and_drops() {
    let mut store = with_files();
    assert_eq!(kinds(&store, Call::Keep(60, 7)), ["accepted with 7"]);
    assert_eq!(kinds(&store, Call::Keep(60, 6)), ["wrong, all else fine"]);
    assert_eq!(kinds(&store, Call::Keep(60, 5 + 256)), ["wrong, all else fine", "wrong, partly right"]);
    assert_eq!(kinds(&store, Call::Keep(61, 6)), ["wrong and late"]);
    assert_eq!(kinds(&store, Call::Keep(61, 7)), [""; 0]);
    assert_eq!(kinds(&store, Call::Keep(20, 6)), ["wrong and kept already"]);
    assert_eq!(kinds(&store, Call::Keep(20, 5)), [""; 0]);
    assert_eq!(kinds(&store, Call::Keep(0, 6)), ["wrong and at 0"]);
    assert_eq!(kinds(&store, Call::Drop(40)), ["of a file with 7"]);
    assert_eq!(kinds(&store, Call::Drop(60)), [""; 0]);
    store.memory.catalogue.truncate(4);
    assert_eq!(kinds(&store, Call::Keep(60, 6)), ["wrong and full"]);
    assert_eq!(kinds(&store, Call::Keep(20, 6)), ["wrong, kept already and full"]);
    assert_eq!(kinds(&store, Call::Keep(20, 5)), ["right, kept already and full"]);
}

#[test]
fn of_marked_deletions() {
    let mut store = with_files();
    let friday = ["others stay between", "the other mark stays", "two neighbours go"];
    assert_eq!(kinds(&store, Call::DropMarked(5)), friday);
    let sunday = ["one goes", "others stay before", "others stay behind", "the other mark stays"];
    assert_eq!(kinds(&store, Call::DropMarked(7)), sunday);
    assert_eq!(kinds(&store, Call::DropMarked(0)), ["permanent"]);
    assert_eq!(kinds(&store, Call::DropMarked(9)), ["wrong"]);
    assert_eq!(kinds(&store, Call::DropMarked(7 << 24)), ["wrong", "wrong, partly right"]);
    store.drop_file(40).unwrap();
    store.memory.catalogue.truncate(3);
    let full =
        ["all of several go", "some of a full catalogue go", "three neighbours go", "two neighbours go"];
    assert_eq!(kinds(&store, Call::DropMarked(5)), full);
    assert_eq!(kinds(&store, Call::DropMarked(7)), ["none of some"]);
    assert_eq!(kinds(&by_hand(), Call::DropMarked(7)), ["of no file"]);
}

/// Memory past the capacity is a stranger's, and its marks are not 0.
#[test]
fn of_audits() {
    let mut store = with_files();
    assert_eq!(kinds(&store, Call::Audit), ["a mark past the capacity"]);
    store.keep(60, 0).unwrap();
    assert_eq!(kinds(&store, Call::Audit), ["a mark past the capacity", "all three marks"]);
    store.memory.catalogue[1].mark = 5 << 24;
    assert_eq!(kinds(&store, Call::Audit), ["a wrong mark", "a wrong mark, partly right"]);
    store.memory.catalogue[1].mark = 5;
    store.memory.catalogue[5].mark = 5;
    assert_eq!(kinds(&store, Call::Audit), ["5 or 7 in an unused entry", "a mark in an unused entry"]);
    // something else is wrong too, so the marks do not decide
    store.memory.areas[0] ^= 1;
    assert_eq!(kinds(&store, Call::Audit), [""; 0]);
}

#[test]
fn where_question_1_is_answered_no() {
    let mut store = with_files();
    store.numbers.live = 5;
    assert_eq!(kinds(&store, Call::Keep(60, 6)), ["wrong, refused by 1"]);
    assert_eq!(kinds(&store, Call::DropMarked(6)), ["wrong, refused by 1"]);
    assert_eq!(kinds(&store, Call::Keep(60, 5)), [""; 0]);
    assert_eq!(kinds(&store, Call::DropMarked(5)), [""; 0]);
    assert_eq!(kinds(&store, Call::Audit), [""; 0]);
}

/// A run in which a call was never made has not met every kind.
#[test]
fn each_kind_is_asked_for() {
    let mut marks = Marks::default();
    marks.note(&Call::Position(60), &with_files());
    assert!(marks.all().is_empty() && !marks.each(0));
}
