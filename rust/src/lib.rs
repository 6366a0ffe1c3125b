//! A stock history store whose calls are proved, over memory that you lend.
//!
//! A [`Store`] borrows five slices ([`Lent`]): it allocates nothing, and holds nothing between calls but its
//! [`Numbers`]. Counts are appended at rising times; the table of any past time, its units added up, and the net
//! change between two times can be asked for.
//!
//! ```
//! use yokefennel::{Entry, Lent, Row, Settings, Step, Store};
//!
//! let settings = Settings { order: 8, page: 2, limit: 4 };
//! let need = settings.lengths(100, 2)?; // for 100 records and 2 count files
//! let (mut log, mut index, mut table) = (vec![0; need.log], vec![0; need.index], vec![0; need.table]);
//! let (mut entries, mut areas) = (vec![Entry::default(); need.entries], vec![0; need.areas]);
//! let lent = Lent {
//!     log: &mut log,
//!     index: &mut index,
//!     table: &mut table,
//!     entries: &mut entries,
//!     areas: &mut areas,
//! };
//! let mut store = Store::fresh(settings, lent)?;
//! store.insert(10, 7, 50)?; // at time 10, article 7 with count 50
//! store.update(30, 7, 44)?;
//!
//! let (mut out, mut work) = (vec![0; need.out], vec![0; need.work]);
//! let rows: Vec<Row> = store.table(20, &mut out)?.rows().collect();
//! assert_eq!(rows, [Row { article: 7, count: 50 }]);
//! assert_eq!(store.units(20)?, 50); // the counts of that table added up
//!
//! let steps: Vec<Step> = store.net_change(20, 30, &mut out, &mut work)?.steps().collect();
//! let (before, after) = (Row { article: 7, count: 50 }, Row { article: 7, count: 44 });
//! assert_eq!(steps, [Step::Delete(before), Step::Insert(after)]);
//! assert_eq!(store.units_between(20, 30)?, -6); // negative where stock fell
//! assert_eq!(store.units(31)?, 44); // after the last request: as at the last
//! # Ok::<(), yokefennel::Refusal>(())
//! ```
//!
//! A store that goes on with the log it finds, or else begins. Where the log is there but damaged, nothing is
//! written over it:
//!
//! ```
//! use yokefennel::{Lent, Numbers, Refusal, Settings, Store};
//!
//! fn begin(settings: Settings, lent: Lent<'_>) -> Result<Store<'_>, Refusal> {
//!     let mut store = Store::resume(Numbers::default(), lent); // no store yet
//!     match store.reopen() {
//!         Err(Refusal::Header) => store.start(settings)?, // no log yet
//!         opened => opened?,
//!     }
//!     Ok(store)
//! }
//! # let settings = Settings { order: 8, page: 2, limit: 4 };
//! # let (mut log, mut index, mut table) = (vec![0; 48], vec![0; 7], vec![0; 32]);
//! # for records in 0..2 {
//! #     let (log, index, table) = (&mut log[..], &mut index[..], &mut table[..]);
//! #     let mut store = begin(settings, Lent { log, index, table, entries: &mut [], areas: &mut [] })?;
//! #     assert_eq!(store.numbers().records, records);
//! #     let _ = store.insert(10, 7, 50);
//! # }
//! # Ok::<(), Refusal>(())
//! ```
//!
//! - **Time**: its unit is yours. Each request's time is above the last one's, so the first is 1 or more; time 0
//!   is that of the empty table, and no request has it.
//! - **Late times**: a time after the last request is answered as the last one, side, place and requests between
//!   included; with no request yet, as time 0. So the clock's time may be asked for. Nothing is remembered: after a
//!   further append such a time is answered anew. Only [`Store::keep`] refuses it, by 12, because a later request
//!   could make the file wrong. Where it matters whether a time is late, compare it with [`Numbers::last`].
//! - **Memory**: [`Settings::lengths`] says how much to lend. No call needs a count file: entries and areas may
//!   be empty.
//! - **Marks**: a count file is kept with a [`Mark`]. [`Store::drop_marked`] deletes every file that goes on Friday, or
//!   every one that goes on Sunday, when you call it: the store knows no weekday. [`Store::drop_file`] deletes one by
//!   its time, whatever its mark.
//! - **Saving**: [`Store::log`] is all that need be saved; [`Store::open`] makes the rest anew. Where the log was read
//!   from a file, [`Store::open_bytes`] takes up as many bytes as were read: behind them the memory may hold another log.
//! - **Threads**: any number of stores on any number of threads.
//! - **Damage**: whatever the lent memory holds, every call ends and stays within it. [`Store::audit`] says
//!   whether it is such as accepted calls leave.
//! - **Stack**: at most 32 kB for a call.
//!
//! The build needs `YK_LIB_DIR`, the full path of the folder of `libembed.a` (x86-64 Linux).
#![no_std]
#![warn(missing_docs)]

mod bytes;
mod lengths;
mod mark;
pub mod raw;
mod refusal;
mod store;

pub use bytes::{Row, Rows, Step, Steps};
pub use lengths::Lengths;
pub use mark::{Mark, UnknownMark};
pub use refusal::Refusal;
pub use store::{Lent, NetChange, Place, Position, Settings, Side, Store, Table, View};

/// The store's numbers. They say what the lent memory holds.
#[repr(C)]
#[derive(Clone, Copy, Debug, Default, PartialEq, Eq, Hash)]
pub struct Numbers {
    /// order of the packed tree, 2 to 64
    pub order: u16,
    /// records per page, 2 to 64
    pub page: u16,
    /// row limit, 1 to 1,024
    pub limit: u32,
    /// records in the log
    pub records: u32,
    /// time of the last request, 0 if there is none
    pub last: u64,
    /// rows of the current table
    pub live: u32,
    /// count files held
    pub files: u32,
}

/// One entry of the catalogue, 16 bytes.
#[repr(C)]
#[derive(Clone, Copy, Debug, Default, PartialEq, Eq, Hash)]
pub struct Entry {
    /// time of the count file
    pub time: u64,
    /// rows of its table
    pub rows: u32,
    /// the number of its [`Mark`]; lent memory that no call has written may hold any number
    pub mark: u32,
}

impl Entry {
    /// The file's mark. `None` where its number is that of no mark, which [`Store::audit`] does not pass.
    ///
    /// ```
    /// use yokefennel::{Entry, Mark};
    ///
    /// assert_eq!(Entry { time: 10, rows: 1, mark: 5 }.marked(), Some(Mark::Friday));
    /// assert_eq!(Entry { time: 10, rows: 1, mark: 6 }.marked(), None);
    /// ```
    pub fn marked(self) -> Option<Mark> {
        Mark::try_from(self.mark).ok()
    }
}

/// The version of the archive that is linked in: 65,536 × major + 256 × minor + patch.
pub fn version() -> u32 {
    // SAFETY: it is given nothing and touches no memory.
    unsafe { raw::yk_version() }
}

#[cfg(test)]
mod tests {
    use super::{raw, Entry, Mark, Numbers};
    use core::mem::{align_of, offset_of, size_of};

    /// As C lays them out on x86-64.
    #[test]
    fn layout() {
        assert_eq!((size_of::<Entry>(), align_of::<Entry>()), (16, 8));
        assert_eq!((offset_of!(Entry, time), offset_of!(Entry, rows), offset_of!(Entry, mark)), (0, 8, 12));
        assert_eq!((size_of::<Numbers>(), size_of::<raw::Change>()), (32, 40));
        type Gone = raw::DropMarkedAnswer;
        assert_eq!((size_of::<Gone>(), offset_of!(Gone, question), offset_of!(Gone, gone)), (40, 32, 36));
    }

    #[test]
    fn a_fresh_entry_is_permanent() {
        assert_eq!(Entry::default().marked(), Some(Mark::Permanent));
    }
}
