//! Net changes: their form, that they lead, and that no shorter list does (traps T64 to T70).

mod common;

use common::{fresh, rows};
use oracle::layout::{Change, Row, DELETION, INSERTION};
use oracle::net_change::{carry_out, leads, net_change};
use std::collections::{BTreeMap, VecDeque};

fn change(kind: u16, article: u32, count: u32) -> Change {
    Change { kind, article, count }
}

#[test]
fn lists_that_lead_and_lists_that_do_not() {
    let (a, b) = (rows(&[(3, 12), (7, 50)]), rows(&[(7, 44)]));
    let [d3, d7, i7] = [change(DELETION, 3, 12), change(DELETION, 7, 50), change(INSERTION, 7, 44)];
    assert_eq!(net_change(&a, &b), [d3, d7, i7]);
    assert!(leads(&[d3, d7, i7], &a, &b));
    assert!(leads(&[d7, d3, i7], &a, &b));
    assert!(!leads(&[change(DELETION, 3, 13), d7, i7], &a, &b));
    assert!(!leads(&[d3, i7, d7], &a, &b));
    assert!(!leads(&[d3, d7], &a, &b));
    // a wasteful list leads too
    assert!(leads(&[change(INSERTION, 1, 1), change(DELETION, 1, 1), d3, d7, i7], &a, &b));
}

/// A full table to another one with R = 4 passes through eight rows: the row limit does not apply
/// to a list.
#[test]
fn no_row_limit_while_a_list_is_carried_out() {
    let mut store = fresh(3, 2, 4);
    for article in 5..=8 {
        store.insert(article as u64, article, 1).unwrap();
    }
    for article in 1..=4 {
        store.delete(article as u64 * 2 + 8, article + 4).unwrap();
        store.insert(article as u64 * 2 + 9, article, 1).unwrap();
    }
    let list = common::net_change(&store, 8, 17);
    let expected = [(2, 1, 1), (2, 2, 1), (2, 3, 1), (2, 4, 1), (3, 5, 1), (3, 6, 1), (3, 7, 1), (3, 8, 1)];
    assert_eq!(list, expected);
}

/// Tables over two articles and two counts.
fn small_tables() -> Vec<Vec<Row>> {
    let row = |article| [None, Some((article, 0)), Some((article, 1))];
    let mut tables = Vec::new();
    for first in row(0) {
        for second in row(1) {
            tables.push(rows(&first.into_iter().chain(second).collect::<Vec<_>>()));
        }
    }
    tables
}

/// The fewest legal insertions and deletions from one table to each other, by trying all lists in
/// order of length.
fn fewest_from(start: &[Row]) -> BTreeMap<Vec<Row>, usize> {
    let mut fewest = BTreeMap::from([(start.to_vec(), 0)]);
    let mut waiting = VecDeque::from([start.to_vec()]);
    while let Some(table) = waiting.pop_front() {
        let steps = fewest[&table] + 1;
        for kind in [INSERTION, DELETION] {
            for (article, count) in [(0, 0), (0, 1), (1, 0), (1, 1)] {
                if let Some(next) = carry_out(&[change(kind, article, count)], &table) {
                    if !fewest.contains_key(&next) {
                        fewest.insert(next.clone(), steps);
                        waiting.push_back(next);
                    }
                }
            }
        }
    }
    fewest
}

#[test]
fn no_shorter_list_leads_there() {
    for a in small_tables() {
        let fewest = fewest_from(&a);
        assert_eq!(fewest.len(), small_tables().len());
        for b in small_tables() {
            let list = net_change(&a, &b);
            assert!(leads(&list, &a, &b));
            assert_eq!(list.len(), fewest[&b]);
            assert_eq!(list.is_empty(), a == b);
        }
    }
}

/// A changed count gives two entries, the deletion first; a row alike in both gives none.
#[test]
fn form() {
    let list = net_change(&rows(&[(1, 1), (2, 2), (4, 4)]), &rows(&[(1, 1), (2, 3), (3, 3)]));
    let expected =
        [change(DELETION, 2, 2), change(INSERTION, 2, 3), change(INSERTION, 3, 3), change(DELETION, 4, 4)];
    assert_eq!(list, expected);
}
