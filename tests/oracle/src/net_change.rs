//! Net changes between two tables, and what it is to carry out a list (01, "Count files").

use crate::layout::{Change, Row, CHANGE_BYTES, DELETION, INSERTION};

/// "It deletes each row of a that b lacks and inserts each row of b that a lacks", ascending by
/// article, a deletion before an insertion of the same article.
pub fn net_change(a: &[Row], b: &[Row]) -> Vec<Change> {
    let deletions = a.iter().filter(|row| !b.contains(row)).map(|row| change(DELETION, row));
    let insertions = b.iter().filter(|row| !a.contains(row)).map(|row| change(INSERTION, row));
    let mut list: Vec<Change> = deletions.chain(insertions).collect();
    list.sort_by_key(|change| (change.article, change.kind == INSERTION));
    list
}

fn change(kind: u16, row: &Row) -> Change {
    Change { kind, article: row.article, count: row.count }
}

/// How many bytes the output of a net change takes.
pub fn output_length(row_limit: u32) -> usize {
    2 * CHANGE_BYTES * row_limit as usize
}

/// The entries, and zeros to 24 × R bytes.
pub fn change_bytes(row_limit: u32, list: &[Change]) -> Vec<u8> {
    let mut bytes: Vec<u8> = list.iter().flat_map(Change::bytes).collect();
    bytes.resize(output_length(row_limit), 0);
    bytes
}

/// The rows after the list's entries in turn, or none where one of them is not legal. No row limit
/// applies.
pub fn carry_out(list: &[Change], rows: &[Row]) -> Option<Vec<Row>> {
    let mut rows = rows.to_vec();
    for change in list {
        let present = rows.iter().position(|row| row.article == change.article);
        match (change.kind, present) {
            (INSERTION, None) => rows.push(Row { article: change.article, count: change.count }),
            (DELETION, Some(at)) if rows[at].count == change.count => {
                rows.remove(at);
            }
            _ => return None,
        }
    }
    rows.sort();
    Some(rows)
}

/// "A list leads from one table to another when each entry is legal and the rows at the end are the
/// other's."
pub fn leads(list: &[Change], from: &[Row], to: &[Row]) -> bool {
    carry_out(list, from).is_some_and(|rows| rows == to)
}
