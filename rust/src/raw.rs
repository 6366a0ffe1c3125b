//! The calls as `include/yokefennel.h` declares them, for those who want no handle. A region is a pointer,
//! never null, and the number of its elements; regions of one call do not overlap. The header says what each
//! call does.

use crate::{Entry, Numbers};

/// What a call that may change the store answers.
#[repr(C)]
#[derive(Clone, Copy, Debug)]
pub struct Change {
    /// the numbers for the next call
    pub numbers: Numbers,
    /// 01's number of the question answered no, or 0
    pub question: u8,
    /// at 17 the first wrong record: the smallest k such that records 0 to k begin no legal log, or the number of
    /// records where only the header's last time is wrong. Either way so many records from the start are legal. Else 0
    pub record: u32,
}

/// What [`yk_drop_marked`] answers.
#[repr(C)]
#[derive(Clone, Copy, Debug)]
pub struct DropMarkedAnswer {
    /// the numbers for the next call
    pub numbers: Numbers,
    /// 01's number of the question answered no, or 0
    pub question: u8,
    /// count files that went, 0 where refused
    pub gone: u32,
}

/// What [`yk_position`] answers.
#[repr(C)]
#[derive(Clone, Copy, Debug)]
pub struct PositionAnswer {
    /// 01's number of the question answered no, or 0
    pub question: u8,
    /// the page in which the time lies, 0 also before the first request
    pub page: u32,
    /// records at or before the time, two for an update; 0 before the first
    pub requests: u32,
}

/// What [`yk_table`] answers.
#[repr(C)]
#[derive(Clone, Copy, Debug)]
pub struct TableAnswer {
    /// 01's number of the question answered no, or 0
    pub question: u8,
    /// rows of the table
    pub rows: u32,
    /// 1 if it was worked out from a table at or after its time
    pub later: u8,
    /// how many requests lie between that table and the time, two for an update
    pub requests_between: u32,
}

/// What [`yk_view`] answers.
#[repr(C)]
#[derive(Clone, Copy, Debug)]
pub struct ViewAnswer {
    /// 01's number of the question answered no, or 0
    pub question: u8,
    /// 0 the empty part of time 0, 1 the area of a count file, 2 the current table
    pub place: u8,
    /// at place 1 the number of the area, from 0
    pub area: u32,
    /// rows there
    pub rows: u32,
    /// 1 if they are those of a time at or after the one asked for
    pub later: u8,
    /// how many requests lie between that time and the one asked for, two for an update
    pub requests_between: u32,
    /// their first byte in the areas (place 1) or in the table
    pub start: usize,
    /// and their bytes, 8 for each row
    pub length: usize,
}

/// What [`yk_net_change`] answers.
#[repr(C)]
#[derive(Clone, Copy, Debug)]
pub struct NetChangeAnswer {
    /// 01's number of the question answered no, or 0
    pub question: u8,
    /// entries of the net change
    pub entries: u32,
}

/// What [`yk_units`] answers.
#[repr(C)]
#[derive(Clone, Copy, Debug)]
pub struct UnitsAnswer {
    /// 01's number of the question answered no, or 0
    pub question: u8,
    /// units on hand, below 2^42 where the audit passes; 0 where refused
    pub units: u64,
}

/// What [`yk_units_between`] answers.
#[repr(C)]
#[derive(Clone, Copy, Debug)]
pub struct UnitsBetweenAnswer {
    /// 01's number of the question answered no, or 0
    pub question: u8,
    /// units at b less units at a, negative where stock fell; 0 where refused
    pub units: i64,
}

/// What [`yk_lengths_for`] answers.
#[repr(C)]
#[derive(Clone, Copy, Debug)]
pub struct LengthsAnswer {
    /// 01's number of the question answered no, or 0
    pub question: u8,
    /// bytes of the log
    pub log: usize,
    /// words of the index
    pub index: usize,
    /// bytes of the table
    pub table: usize,
    /// entries of the catalogue
    pub entries: usize,
    /// bytes of the areas
    pub areas: usize,
    /// bytes of a net change's output
    pub out: usize,
    /// bytes of its workspace
    pub work: usize,
}

// one region to a line, its length beside it
#[rustfmt::skip]
extern "C" {
    /// The version of the archive: 65,536 × major + 256 × minor + patch.
    pub fn yk_version() -> u32;

    /// The lengths to lend for so many records and count files.
    pub fn yk_lengths_for(order: u16, page: u16, limit: u32, records: u32, files: u32) -> LengthsAnswer;

    /// Starts an empty store.
    pub fn yk_fresh(
        order: u16, page: u16, limit: u32,
        log: *mut u8, log_length: usize,
        table: *mut u8, table_length: usize,
        entries: *mut Entry, entries_length: usize,
        areas: *const u8, areas_length: usize,
    ) -> Change;

    /// Takes up a written log.
    pub fn yk_open(
        log: *const u8, log_length: usize,
        index: *mut u64, index_length: usize,
        table: *mut u8, table_length: usize,
        entries: *mut Entry, entries_length: usize,
        areas: *const u8, areas_length: usize,
    ) -> Change;

    /// Adds an article with a count.
    pub fn yk_insert(
        numbers: Numbers,
        log: *mut u8, log_length: usize,
        index: *mut u64, index_length: usize,
        table: *mut u8, table_length: usize,
        entries: *const Entry, entries_length: usize,
        areas: *const u8, areas_length: usize,
        time: u64, article: u32, count: u32,
    ) -> Change;

    /// Removes a present article.
    pub fn yk_delete(
        numbers: Numbers,
        log: *mut u8, log_length: usize,
        index: *mut u64, index_length: usize,
        table: *mut u8, table_length: usize,
        entries: *const Entry, entries_length: usize,
        areas: *const u8, areas_length: usize,
        time: u64, article: u32,
    ) -> Change;

    /// Gives a present article another count, or the same.
    pub fn yk_update(
        numbers: Numbers,
        log: *mut u8, log_length: usize,
        index: *mut u64, index_length: usize,
        table: *mut u8, table_length: usize,
        entries: *const Entry, entries_length: usize,
        areas: *const u8, areas_length: usize,
        time: u64, article: u32, count: u32,
    ) -> Change;

    /// The position of a time: its page and its requests.
    pub fn yk_position(
        numbers: Numbers,
        log: *const u8, log_length: usize,
        index: *const u64, index_length: usize,
        table: *const u8, table_length: usize,
        entries: *const Entry, entries_length: usize,
        areas: *const u8, areas_length: usize,
        time: u64,
    ) -> PositionAnswer;

    /// The table of a time.
    pub fn yk_table(
        numbers: Numbers,
        log: *const u8, log_length: usize,
        index: *const u64, index_length: usize,
        table: *const u8, table_length: usize,
        entries: *const Entry, entries_length: usize,
        areas: *const u8, areas_length: usize,
        time: u64,
        out: *mut u8, out_length: usize,
    ) -> TableAnswer;

    /// Where the rows lie that the table of a time is worked out from.
    pub fn yk_view(
        numbers: Numbers,
        log: *const u8, log_length: usize,
        index: *const u64, index_length: usize,
        table: *const u8, table_length: usize,
        entries: *const Entry, entries_length: usize,
        areas: *const u8, areas_length: usize,
        time: u64,
    ) -> ViewAnswer;

    /// What leads from the table of time a to that of time b.
    pub fn yk_net_change(
        numbers: Numbers,
        log: *const u8, log_length: usize,
        index: *const u64, index_length: usize,
        table: *const u8, table_length: usize,
        entries: *const Entry, entries_length: usize,
        areas: *const u8, areas_length: usize,
        a: u64, b: u64,
        out: *mut u8, out_length: usize,
        work: *mut u8, work_length: usize,
    ) -> NetChangeAnswer;

    /// The units on hand at a time.
    pub fn yk_units(
        numbers: Numbers,
        log: *const u8, log_length: usize,
        index: *const u64, index_length: usize,
        table: *const u8, table_length: usize,
        entries: *const Entry, entries_length: usize,
        areas: *const u8, areas_length: usize,
        time: u64,
    ) -> UnitsAnswer;

    /// The units at time b less those at time a.
    pub fn yk_units_between(
        numbers: Numbers,
        log: *const u8, log_length: usize,
        index: *const u64, index_length: usize,
        table: *const u8, table_length: usize,
        entries: *const Entry, entries_length: usize,
        areas: *const u8, areas_length: usize,
        a: u64, b: u64,
    ) -> UnitsBetweenAnswer;

    /// Keeps the table of a time as a count file with a mark: 0, 5 or 7.
    pub fn yk_keep(
        numbers: Numbers,
        log: *const u8, log_length: usize,
        index: *const u64, index_length: usize,
        table: *const u8, table_length: usize,
        entries: *mut Entry, entries_length: usize,
        areas: *mut u8, areas_length: usize,
        time: u64, mark: u32,
    ) -> Change;

    /// Gives up the count file of a time.
    pub fn yk_drop(
        numbers: Numbers,
        log: *const u8, log_length: usize,
        index: *const u64, index_length: usize,
        table: *const u8, table_length: usize,
        entries: *mut Entry, entries_length: usize,
        areas: *mut u8, areas_length: usize,
        time: u64,
    ) -> Change;

    /// Gives up every count file with this mark: 5 or 7.
    pub fn yk_drop_marked(
        numbers: Numbers,
        log: *const u8, log_length: usize,
        index: *const u64, index_length: usize,
        table: *const u8, table_length: usize,
        entries: *mut Entry, entries_length: usize,
        areas: *mut u8, areas_length: usize,
        mark: u32,
    ) -> DropMarkedAnswer;

    /// 1 if numbers and memory are such as accepted calls leave, else 0.
    pub fn yk_audit(
        numbers: Numbers,
        log: *const u8, log_length: usize,
        index: *const u64, index_length: usize,
        table: *const u8, table_length: usize,
        entries: *const Entry, entries_length: usize,
        areas: *const u8, areas_length: usize,
    ) -> u8;
}
