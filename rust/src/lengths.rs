//! How much memory to lend.

use crate::{raw, Refusal, Settings};

/// How long each region must be: the least that suffices.
#[derive(Clone, Copy, Debug, PartialEq, Eq, Hash)]
pub struct Lengths {
    /// bytes of the log
    pub log: usize,
    /// words of the index
    pub index: usize,
    /// bytes of the table
    pub table: usize,
    /// entries of the catalogue
    pub entries: usize,
    /// bytes of the areas
    pub areas: usize,
    /// bytes of the output of a net change; a table takes a third of them
    pub out: usize,
    /// bytes of the workspace of a net change
    pub work: usize,
}

impl Settings {
    /// What to lend for so many records and count files. With as much, no call is refused for want of memory
    /// until there are more of them. It is the least: with less of a region, the call that needs it is refused,
    /// be it the opening of so many records, the last append, the last keep or a net change.
    ///
    /// Refuses by 2, 3, 4, by 5 over 65,536 records, and by 15 over 16 files.
    ///
    /// ```
    /// let settings = yokefennel::Settings { order: 8, page: 16, limit: 100 };
    /// let need = settings.lengths(1_000, 2)?;
    /// assert_eq!((need.log, need.index, need.out), (24_024, 77, 2_400));
    /// # Ok::<(), yokefennel::Refusal>(())
    /// ```
    pub fn lengths(self, records: u32, files: u32) -> Result<Lengths, Refusal> {
        // it takes and answers numbers alone
        let raw::LengthsAnswer { question, log, index, table, entries, areas, out, work } =
            unsafe { raw::yk_lengths_for(self.order, self.page, self.limit, records, files) };
        match Refusal::of(question, 0) {
            Some(refusal) => Err(refusal),
            None => Ok(Lengths { log, index, table, entries, areas, out, work }),
        }
    }
}
