//! Rows of a table and entries of a net change, read from their bytes.

use core::cmp::Ordering;
use core::iter::FusedIterator;
use core::slice::ChunksExact;

/// A row of a table.
#[derive(Clone, Copy, Debug, PartialEq, Eq, Hash)]
pub struct Row {
    /// the article's number, any value
    pub article: u32,
    /// its count, any value
    pub count: u32,
}

/// An entry of a net change. An article's deletion comes before its insertion.
#[derive(Clone, Copy, Debug, PartialEq, Eq, Hash)]
pub enum Step {
    /// the row is to be added
    Insert(Row),
    /// the row is to be removed
    Delete(Row),
}

/// The rows of a table, ascending by article.
#[derive(Clone, Debug)]
pub struct Rows<'a>(ChunksExact<'a, u8>);

/// The entries of a net change, ascending by article.
#[derive(Clone, Debug)]
pub struct Steps<'a>(ChunksExact<'a, u8>);

/// The first `count` pieces of this size, or as many as there are.
fn pieces(bytes: &[u8], count: u32, size: usize) -> ChunksExact<'_, u8> {
    let length = (count as usize).saturating_mul(size).min(bytes.len());
    bytes[..length].chunks_exact(size)
}

impl<'a> Rows<'a> {
    pub(crate) fn of(bytes: &'a [u8], rows: u32) -> Rows<'a> {
        Rows(pieces(bytes, rows, 8))
    }
}

impl<'a> Steps<'a> {
    pub(crate) fn of(bytes: &'a [u8], entries: u32) -> Steps<'a> {
        Steps(pieces(bytes, entries, 12))
    }
}

fn number(bytes: &[u8]) -> u32 {
    u32::from_le_bytes([bytes[0], bytes[1], bytes[2], bytes[3]])
}

fn row(bytes: &[u8]) -> Row {
    Row { article: number(bytes), count: number(&bytes[4..]) }
}

/// The row of an article among the first `rows` rows, or as many as there are: they ascend, so by halves.
pub(crate) fn find(bytes: &[u8], rows: u32, article: u32) -> Option<Row> {
    let (mut low, mut high) = (0, (rows as usize).min(bytes.len() / 8));
    while low < high {
        let middle = low + (high - low) / 2;
        let row = row(&bytes[8 * middle..]);
        match row.article.cmp(&article) {
            Ordering::Less => low = middle + 1,
            Ordering::Greater => high = middle,
            Ordering::Equal => return Some(row),
        }
    }
    None
}

fn step(bytes: &[u8]) -> Step {
    let row = row(&bytes[4..]);
    match bytes[2] {
        3 => Step::Delete(row),
        _ => Step::Insert(row),
    }
}

impl Iterator for Rows<'_> {
    type Item = Row;

    fn next(&mut self) -> Option<Row> {
        self.0.next().map(row)
    }

    fn size_hint(&self) -> (usize, Option<usize>) {
        self.0.size_hint()
    }
}

impl DoubleEndedIterator for Rows<'_> {
    fn next_back(&mut self) -> Option<Row> {
        self.0.next_back().map(row)
    }
}

impl ExactSizeIterator for Rows<'_> {}
impl FusedIterator for Rows<'_> {}

impl Iterator for Steps<'_> {
    type Item = Step;

    fn next(&mut self) -> Option<Step> {
        self.0.next().map(step)
    }

    fn size_hint(&self) -> (usize, Option<usize>) {
        self.0.size_hint()
    }
}

impl DoubleEndedIterator for Steps<'_> {
    fn next_back(&mut self) -> Option<Step> {
        self.0.next_back().map(step)
    }
}

impl ExactSizeIterator for Steps<'_> {}
impl FusedIterator for Steps<'_> {}

#[cfg(test)]
mod tests {
    use super::{find, Row, Rows, Step, Steps};
    extern crate std;
    use std::vec::Vec;

    #[test]
    fn rows_are_little_endian_and_counted() {
        let bytes = [7, 0, 0, 0, 50, 0, 0, 0, 9, 1, 0, 0, 6, 0, 0, 0x80, 0, 0, 0, 0, 0, 0, 0, 0];
        let both = [Row { article: 7, count: 50 }, Row { article: 265, count: 0x8000_0006 }];
        assert_eq!(Rows::of(&bytes, 2).collect::<Vec<_>>(), both);
        assert_eq!((Rows::of(&bytes, 3).len(), Rows::of(&bytes, 9).len()), (3, 3));
        assert_eq!(Rows::of(&bytes, 2).next_back(), Some(both[1]));
    }

    #[test]
    fn articles_are_found_by_halves() {
        for rows in 0..9u32 {
            let row = |k: u32| Row { article: 10 * k + 1, count: k };
            let bytes: Vec<u8> =
                (0..rows).flat_map(|k| [row(k).article, row(k).count]).flat_map(u32::to_le_bytes).collect();
            for counted in [rows, u32::MAX] {
                assert!((0..rows).all(|k| find(&bytes, counted, row(k).article) == Some(row(k))));
                let absent = [0, 2, 45, row(rows).article, u32::MAX];
                assert!(absent.iter().all(|&article| find(&bytes, counted, article).is_none()));
            }
            assert_eq!(find(&bytes, 1, row(1).article), None, "past the rows");
        }
        assert_eq!(find(&[1; 7], 1, 0x0101_0101), None, "no whole row");
    }

    #[test]
    fn steps_have_their_kind() {
        let bytes = [12, 0, 3, 0, 7, 0, 0, 0, 50, 0, 0, 0, 12, 0, 2, 0, 7, 0, 0, 0, 44, 0, 0, 0];
        let both = [Step::Delete(Row { article: 7, count: 50 }), Step::Insert(Row { article: 7, count: 44 })];
        assert_eq!(Steps::of(&bytes, 2).collect::<Vec<_>>(), both);
    }
}
