//! The packed tree over the page times (01, "Packed tree"), by carrying out the allocation rule
//! leaf by leaf.

/// A node in allocation order: its level, leaves being at 0, and the words in use.
#[derive(Clone, Debug, PartialEq, Eq)]
pub struct Node {
    pub level: u32,
    pub keys: Vec<u64>,
}

/// v and q of leaf m, m ≥ 1: how often d divides m, and m divided by d that many times.
pub fn divisions(d: u16, m: usize) -> (u32, usize) {
    let d = d as usize;
    let (mut v, mut q) = (0, m);
    while q % d == 0 {
        v += 1;
        q /= d;
    }
    (v, q)
}

/// All nodes, in allocation order, for these keys.
pub fn nodes(d: u16, keys: &[u64]) -> Vec<Node> {
    let mut nodes: Vec<Node> = Vec::new();
    let leaves: Vec<&[u64]> = keys.chunks(d as usize - 1).collect();
    for (m, leaf) in leaves.iter().enumerate() {
        if m >= 1 {
            let separator = *leaves[m - 1].last().unwrap();
            let (v, q) = divisions(d, m);
            let level = 1 + v;
            if q % d as usize == 1 {
                // the new inner node is numbered before the leaf
                nodes.push(Node { level, keys: vec![separator] });
            } else {
                // the open node of a level is the one of that level allocated last
                let open = nodes.iter_mut().rev().find(|node| node.level == level).unwrap();
                open.keys.push(separator);
            }
        }
        nodes.push(Node { level: 0, keys: leaf.to_vec() });
    }
    nodes
}

/// The words of the packed tree: d − 1 words a node, unused words zero.
pub fn words(d: u16, keys: &[u64]) -> Vec<u64> {
    let mut words = Vec::new();
    for (k, node) in nodes(d, keys).iter().enumerate() {
        words.extend(&node.keys);
        words.resize((k + 1) * (d as usize - 1), 0);
    }
    words
}

/// How many leaves n records take.
pub fn leaf_count(d: u16, page_size: u16, n: u32) -> usize {
    let pages = (n as usize).div_ceil(page_size as usize);
    pages.div_ceil(d as usize - 1)
}

/// How many nodes this many leaves take: the leaves, and the inner nodes that the rule makes new.
pub fn node_count(d: u16, leaves: usize) -> usize {
    let new_inner = (1..leaves).filter(|&m| divisions(d, m).1 % d as usize == 1).count();
    leaves + new_inner
}

/// How many index words the nodes take that n records take.
pub fn word_count(d: u16, page_size: u16, n: u32) -> usize {
    node_count(d, leaf_count(d, page_size, n)) * (d as usize - 1)
}

/// "The number of keys ≤ t, less one, or 0 if there are none."
pub fn page_position(keys: &[u64], t: u64) -> u32 {
    let keys_until = keys.iter().filter(|&&key| key <= t).count() as u32;
    keys_until.saturating_sub(1)
}
