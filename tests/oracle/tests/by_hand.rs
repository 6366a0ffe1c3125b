//! 01, "One log by hand": each of its cases.

mod common;

use common::{by_hand, fresh, net_change, outset, position, refused, table, AMPLE, STRANGE};
use oracle::layout::{DELETION, INSERTION};
use oracle::listing::listing;
use oracle::log::log_length;
use oracle::outset::{Place, Side};
use oracle::samples::log_by_hand;
use oracle::store::{Lengths, Memory, Store};
use oracle::tree::nodes;

/// The log by its six requests, over memory as a stranger left it.
fn by_calls() -> Store {
    let mut store = fresh(3, 2, 4);
    store.insert(10, 7, 50).unwrap();
    store.insert(20, 3, 12).unwrap();
    store.update(30, 7, 44).unwrap();
    store.delete(40, 3).unwrap();
    store.insert(50, 9, 5).unwrap();
    store.update(60, 9, 6).unwrap();
    store
}

#[test]
fn the_calls_write_the_log_and_opening_it_gives_the_same_store() {
    let store = by_calls();
    assert_eq!(store.memory.log[..log_length(8)], log_by_hand());
    assert_eq!(store, by_hand());
    assert!(store.audit());
    assert_eq!((store.numbers.records, store.numbers.last, store.numbers.live), (8, 60, 2));
}

#[test]
fn index_words() {
    let store = by_hand();
    assert_eq!(store.memory.index[..6], [10, 30, 30, 0, 40, 60]);
    assert_eq!(store.memory.index[6], u64::from_le_bytes([STRANGE; 8]));
}

#[test]
fn positions() {
    let store = by_hand();
    let pages = [0, 29, 30, 35, 40, 60].map(|t| position(&store, t).0);
    assert_eq!(pages, [0, 0, 1, 1, 2, 3]);
}

/// The records' times are 10 20 | 30 30 | 40 50 | 60 60, a page between two bars.
#[test]
fn positions_with_their_requests() {
    let store = by_hand();
    let before_30 = [0, 9, 10, 19, 20, 29].map(|t| position(&store, t));
    assert_eq!(before_30, [(0, 0), (0, 0), (0, 1), (0, 1), (0, 2), (0, 2)]);
    let from_30 = [30, 35, 40, 45, 59, 60].map(|t| position(&store, t));
    assert_eq!(from_30, [(1, 4), (1, 4), (2, 5), (2, 5), (2, 6), (3, 8)]);
}

#[test]
fn tables() {
    let store = by_hand();
    assert_eq!(table(&store, 20).0, [(3, 12), (7, 50)]);
    assert_eq!(table(&store, 30).0, [(3, 12), (7, 44)]);
    assert_eq!(table(&store, 45).0, [(7, 44)]);
    assert_eq!(table(&store, 60).0, [(7, 44), (9, 6)]);
    assert_eq!(table(&store, 9).0, []);
}

/// "01's case of time 61 becomes an answer, with the table of 60" (02, wish 2).
#[test]
fn the_table_of_61_is_that_of_60() {
    let store = by_hand();
    assert_eq!(table(&store, 61).0, [(7, 44), (9, 6)]);
    assert_eq!(table(&store, 61), table(&store, 60));
    assert_eq!(position(&store, 61), (3, 8));
}

#[test]
fn net_changes() {
    let store = by_hand();
    assert_eq!(net_change(&store, 20, 45), [(DELETION, 3, 12), (DELETION, 7, 50), (INSERTION, 7, 44)]);
    assert_eq!(net_change(&store, 45, 20), [(INSERTION, 3, 12), (DELETION, 7, 44), (INSERTION, 7, 50)]);
    assert_eq!(net_change(&store, 30, 35), []);
}

/// 02's figures (wish 6). The requests up to 10, 20, 30, 40, 45 and 60 are 1, 2, 4, 5, 5 and 8.
#[test]
fn outsets() {
    let mut store = by_hand();
    let view = |store: &Store, t| {
        let view = store.view(t).unwrap();
        (view.place, view.side, view.requests_between, view.rows, view.start, view.length)
    };
    // with 20 kept: 5 - 2 against 8 - 5, a tie of three
    store.keep(20, 0).unwrap();
    assert_eq!(outset(&store, 45), (Side::Earlier, 3));
    assert_eq!(view(&store, 45), (Place::File(0), Side::Earlier, 3, 2, 0, 16));
    assert_eq!(table(&store, 45).0, [(7, 44)]);
    store.drop_file(20).unwrap();
    // with only 40 kept: 4 - 0 against 5 - 4
    store.keep(40, 0).unwrap();
    assert_eq!(outset(&store, 30), (Side::Later, 1));
    assert_eq!(view(&store, 30), (Place::File(0), Side::Later, 1, 1, 0, 8));
    assert_eq!(table(&store, 30).0, [(3, 12), (7, 44)]);
    // with 10 and 40 kept: 4 - 1 against 5 - 4, and one page either way
    store.keep(10, 0).unwrap();
    assert_eq!(outset(&store, 30), (Side::Later, 1));
    assert_eq!(view(&store, 30), (Place::File(1), Side::Later, 1, 1, 32, 8));
    assert_eq!(table(&store, 30).0, [(3, 12), (7, 44)]);
    assert_eq!([10, 30, 40].map(|t| position(&store, t)), [(0, 1), (1, 4), (2, 5)]);
}

#[test]
fn node_numbers_at_order_3() {
    let keys: Vec<u64> = (1..=20).map(|i| 10 * i).collect();
    let nodes_of = |leaves: usize| nodes(3, &keys[..2 * leaves]);
    let leaf =
        |m: usize| nodes_of(10).iter().enumerate().filter(|(_, node)| node.level == 0).nth(m).unwrap().0;
    let root = |leaves: usize| {
        let nodes = nodes_of(leaves);
        let top = nodes.iter().map(|node| node.level).max().unwrap();
        nodes.iter().position(|node| node.level == top).unwrap()
    };
    assert_eq!(leaf(6), 9);
    assert_eq!(root(9), 4);
    assert_eq!(root(10), 13);
    assert_eq!(leaf(9), 14);
}

#[test]
fn refusals() {
    let mut store = by_hand();
    // a query no longer (02, wish 2)
    assert_eq!(refused(store.keep(61, 0)), 12);
    store.insert(61, 1, 1).unwrap();
    store.insert(62, 2, 1).unwrap();
    assert_eq!(refused(store.insert(63, 4, 1)), 9);
    let short = Lengths { log: log_length(9), ..AMPLE };
    let mut memory = Memory::filled(short, STRANGE);
    memory.log[..log_length(8)].copy_from_slice(&log_by_hand());
    let mut store = Store::over(memory);
    store.open().unwrap();
    assert_eq!(refused(store.update(70, 7, 1)), 10);
    store.delete(70, 7).unwrap();
}

#[test]
fn listing_of_the_log() {
    let expected =
        "time page outset rows\n10 0 E 1\n20 0 E 2\n30 1 E 2\n40 2 L 1\n50 2 L 2\n60 3 L 2\nunits 50\n";
    assert_eq!(listing(&log_by_hand()), expected);
}
