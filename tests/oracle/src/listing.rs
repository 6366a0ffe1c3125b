//! The listing program (01, "One log by hand"; 02, wish 1): what it prints for the bytes on its standard input.

use crate::layout::Record;
use crate::limits::ROW_LIMITS;
use crate::outset::Side;
use crate::store::{Lengths, Memory, Refusal, Store};
use crate::table::table_length;

/// The bytes lent for the log; input past them is ignored.
pub const LENT_LOG: usize = 65_536;

/// Index words enough for any log of that length: 2,729 records, order 2, two records a page.
pub const LENT_INDEX: usize = 2_729;

pub const HEADING: &str = "time page outset rows\n";

pub fn listing(input: &[u8]) -> String {
    match lines(input) {
        Ok(lines) => HEADING.to_string() + &lines,
        Err(refusal) => format!("refused {}\n", refusal.question),
    }
}

fn lines(input: &[u8]) -> Result<String, Refusal> {
    let mut store = Store::over(lent_memory(input));
    store.open()?;
    let mut output = vec![0; table_length(store.numbers.row_limit)];
    let mut lines = String::new();
    for time in request_times(&store.records()) {
        let page = store.position(time)?.page;
        let answer = store.table(time, &mut output)?;
        let side = match answer.side {
            Side::Earlier => "E",
            Side::Later => "L",
        };
        lines += &format!("{time} {page} {side} {}\n", answer.rows);
    }
    // of the last table, which is the empty one of time 0 where there is no request
    lines += &format!("units {}\n", store.units(store.numbers.last)?);
    Ok(lines)
}

/// The different times of the records, ascending.
fn request_times(records: &[Record]) -> Vec<u64> {
    let mut times: Vec<u64> = records.iter().map(|record| record.time).collect();
    times.dedup();
    times
}

/// The input with zeros behind it, index and table enough for any such log, and no place for a
/// count file.
fn lent_memory(input: &[u8]) -> Memory {
    let most_rows = *ROW_LIMITS.end();
    let lengths =
        Lengths { log: LENT_LOG, index: LENT_INDEX, table: table_length(most_rows), catalogue: 0, areas: 0 };
    let mut memory = Memory::filled(lengths, 0);
    let read = input.len().min(LENT_LOG);
    memory.log[..read].copy_from_slice(&input[..read]);
    memory
}
