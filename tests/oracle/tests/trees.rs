//! The packed tree: known values, and a search by the shape of the tree that finds each position in
//! its words.

use oracle::limits::{MOST_RECORDS, ORDERS, PAGE_SIZES};
use oracle::listing::LENT_INDEX;
use oracle::random::Random;
use oracle::tree::{divisions, node_count, nodes, page_position, word_count, words};

fn tens(many: u64) -> Vec<u64> {
    (1..=many).map(|i| 10 * i).collect()
}

fn leaf_numbers(d: u16, keys: &[u64]) -> Vec<usize> {
    nodes(d, keys).iter().enumerate().filter(|(_, node)| node.level == 0).map(|(k, _)| k).collect()
}

#[test]
fn nodes_by_leaves() {
    let counts = |d: u16| (0..=13).map(|leaves| node_count(d, leaves)).collect::<Vec<_>>();
    assert_eq!(counts(3), [0, 1, 3, 4, 6, 8, 9, 10, 12, 13, 15, 17, 18, 20]);
    assert_eq!(counts(4), [0, 1, 3, 4, 5, 7, 9, 10, 11, 12, 14, 15, 16, 17]);
    assert_eq!(counts(2), [0, 1, 3, 5, 7, 9, 11, 13, 15, 17, 19, 21, 23, 25]);
}

#[test]
fn the_count_of_nodes_is_that_of_the_tree() {
    for d in ORDERS {
        for pages in 0..300 {
            let leaves = (pages as usize).div_ceil(d as usize - 1);
            assert_eq!(node_count(d, leaves), nodes(d, &tens(pages)).len());
        }
    }
}

#[test]
fn leaf_numbers_at_order_3() {
    assert_eq!(leaf_numbers(3, &tens(24)), [0, 2, 3, 5, 7, 8, 9, 11, 12, 14, 16, 17]);
}

#[test]
fn words_at_order_3() {
    let expected = [
        [10, 20],
        [20, 40],
        [30, 40],
        [50, 60],
        [60, 120],
        [70, 80],
        [80, 100],
        [90, 100],
        [110, 120],
        [130, 140],
        [140, 160],
        [150, 160],
        [170, 180],
        [180, 0],
        [190, 200],
    ];
    assert_eq!(words(3, &tens(20)), expected.concat());
}

#[test]
fn words_at_order_2() {
    assert_eq!(words(2, &tens(5)), [10, 10, 20, 20, 30, 30, 40, 40, 50]);
}

/// d = 4, m = 8: d divides m once, though 2 does three times.
#[test]
fn divisions_of_a_composite_order() {
    assert_eq!(divisions(4, 8), (1, 2));
    assert_eq!(divisions(4, 16), (2, 1));
    assert_eq!(divisions(3, 7), (0, 7));
}

/// The separator is the last key of the leaf before, not the first of the new leaf.
#[test]
fn separators() {
    for d in [2, 3, 4, 5, 64] {
        let keys = tens(400);
        let per_leaf = d as usize - 1;
        let mut separators: Vec<u64> =
            nodes(d, &keys).iter().filter(|node| node.level > 0).flat_map(|node| node.keys.clone()).collect();
        separators.sort();
        let ends: Vec<u64> = keys.chunks(per_leaf).map(|leaf| *leaf.last().unwrap()).collect();
        assert_eq!(separators, ends[..ends.len() - 1]);
        assert!(nodes(d, &keys).iter().all(|node| (1..=per_leaf).contains(&node.keys.len())));
    }
}

#[test]
fn largest_indexes() {
    let most = |n: u32| {
        let sizes = ORDERS.flat_map(|d| PAGE_SIZES.map(move |page_size| word_count(d, page_size, n)));
        sizes.max().unwrap()
    };
    assert_eq!(most(MOST_RECORDS), 65_535);
    assert_eq!(word_count(2, 2, MOST_RECORDS), 65_535);
    assert_eq!(most(2_729), LENT_INDEX);
    // no shorter log takes more
    assert!((0..2_729).all(|n| ORDERS.into_iter().all(|d| word_count(d, 2, n) <= LENT_INDEX)));
}

/// The level of the top of r leaves: 0 for one leaf, else 1 + ⌊log_d(r − 1)⌋.
fn top_level(d: usize, r: usize) -> u32 {
    if r == 1 {
        0
    } else {
        1 + (r - 1).ilog(d)
    }
}

/// Searches the words from the top of leaves a to a + r − 1 down; the level falls at each node, by
/// more than one on a right edge that skips levels. A time at or above a separator goes on to its
/// right.
fn search(
    d: usize,
    words: &[u64],
    leaf_numbers: &[usize],
    pages: usize,
    (a, r): (usize, usize),
    t: u64,
) -> usize {
    let per_leaf = d - 1;
    let level = top_level(d, r);
    if level == 0 {
        let used = per_leaf.min(pages - a * per_leaf);
        let first = leaf_numbers[a] * per_leaf;
        let keys_until = words[first..first + used].iter().filter(|&&key| key <= t).count();
        return (a * per_leaf + keys_until).saturating_sub(1);
    }
    let child = d.pow(level - 1);
    let node = leaf_numbers[a + child] - 1;
    let used = r.div_ceil(child) - 1;
    let separators = &words[node * per_leaf..node * per_leaf + used];
    let branch = separators.iter().filter(|&&separator| separator <= t).count();
    let rest = (a + branch * child, child.min(r - branch * child));
    search(d, words, leaf_numbers, pages, rest, t)
}

#[test]
fn a_search_of_the_words_finds_the_position() {
    let mut random = Random::new(42);
    for d in [2, 3, 4, 5, 7, 64] {
        for pages in (1..130).chain([500, 730, 1365]) {
            let mut keys: Vec<u64> = (0..pages).map(|_| random.from(1, 20 * pages)).collect();
            keys.sort();
            keys.dedup();
            let words = words(d, &keys);
            let leaves = leaf_numbers(d, &keys);
            for _ in 0..60 {
                let t = random.from(0, 20 * pages + 1);
                let found = search(d as usize, &words, &leaves, keys.len(), (0, leaves.len()), t);
                assert_eq!(found as u32, page_position(&keys, t), "order {d}, keys {keys:?}, time {t}");
            }
        }
    }
}

/// The root of ten leaves at order 3 is at level 3 and points at a leaf: two levels are skipped.
#[test]
fn the_right_edge_skips_two_levels() {
    let nodes = nodes(3, &tens(20));
    assert_eq!((nodes[13].level, nodes[13].keys.as_slice()), (3, [180].as_slice()));
    assert_eq!((nodes[14].level, nodes.len()), (0, 15));
    assert_eq!(page_position(&tens(20), 185), 17);
    assert_eq!(page_position(&tens(20), 190), 18);
}

#[test]
fn positions_at_the_ends() {
    assert_eq!(page_position(&[], 5), 0);
    assert_eq!(page_position(&[10], 9), 0);
    assert_eq!(page_position(&[10, u64::MAX], u64::MAX), 1);
}
