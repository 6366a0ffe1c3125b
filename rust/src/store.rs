//! The handle: numbers and lent memory together.

use crate::{bytes, raw, Entry, Mark, Numbers, Refusal, Rows, Steps};

/// What a maker chooses.
#[derive(Clone, Copy, Debug, PartialEq, Eq, Hash)]
pub struct Settings {
    /// order of the packed tree, 2 to 64
    pub order: u16,
    /// records per page, 2 to 64
    pub page: u16,
    /// row limit, 1 to 1,024
    pub limit: u32,
}

/// The lent memory. What lies past the lengths that suffice stays as it was.
#[derive(Debug)]
pub struct Lent<'a> {
    /// header and records: 24 bytes, and 24 for each record
    pub log: &'a mut [u8],
    /// the packed tree: order − 1 words for each node
    pub index: &'a mut [u64],
    /// the current table: 8 × limit bytes
    pub table: &'a mut [u8],
    /// the catalogue: one for each count file, up to 16
    pub entries: &'a mut [Entry],
    /// the tables of the count files: 8 × limit bytes each
    pub areas: &'a mut [u8],
}

/// A store over borrowed memory.
#[derive(Debug)]
pub struct Store<'a> {
    numbers: Numbers,
    lent: Lent<'a>,
}

/// Which way from a time the table lies that its own is worked out from. For a time after the last, which is
/// answered as the last one, it is the way from that one.
#[derive(Clone, Copy, Debug, PartialEq, Eq, Hash)]
pub enum Side {
    /// at or before it
    Earlier,
    /// at or after it
    Later,
}

/// The position of a time.
#[derive(Clone, Copy, Debug, PartialEq, Eq, Hash)]
pub struct Position {
    /// the page in which it lies, 0 also before the first request
    pub page: u32,
    /// records at or before it, two for an update; 0 before the first
    pub requests: u32,
}

/// The table of a time, in the output that was lent for it.
#[derive(Clone, Copy, Debug)]
pub struct Table<'o> {
    bytes: &'o [u8],
    rows: u32,
    /// where it was worked out from
    pub side: Side,
    /// how many requests lie between that table and the time, two for an update
    pub requests_between: u32,
}

/// Where the rows of a view lie.
#[derive(Clone, Copy, Debug, PartialEq, Eq, Hash)]
pub enum Place {
    /// time 0: no rows
    Empty,
    /// the count file with this number, from 0
    File(usize),
    /// the current table
    Current,
}

/// The rows that the table of a time is worked out from, where they lie.
#[derive(Clone, Copy, Debug)]
pub struct View<'s> {
    bytes: &'s [u8],
    rows: u32,
    /// where they lie
    pub place: Place,
    /// whether they are those of an earlier or a later time
    pub side: Side,
    /// how many requests lie between that time and the one asked for, two for an update
    pub requests_between: u32,
}

/// A net change, in the output that was lent for it.
#[derive(Clone, Copy, Debug)]
pub struct NetChange<'o> {
    bytes: &'o [u8],
    entries: u32,
}

impl<'o> Table<'o> {
    /// Its rows.
    pub fn rows(&self) -> Rows<'o> {
        Rows::of(self.bytes, self.rows)
    }

    /// The count of an article, if it is there.
    pub fn count(&self, article: u32) -> Option<u32> {
        bytes::find(self.bytes, self.rows, article).map(|row| row.count)
    }
}

impl<'s> View<'s> {
    /// The rows.
    pub fn rows(&self) -> Rows<'s> {
        Rows::of(self.bytes, self.rows)
    }
}

impl<'o> NetChange<'o> {
    /// Its entries.
    pub fn steps(&self) -> Steps<'o> {
        Steps::of(self.bytes, self.entries)
    }

    /// Its bytes as 01 lays them out, 12 for each entry: what a wholesaler is sent.
    pub fn bytes(&self) -> &'o [u8] {
        front(self.bytes, (self.entries as usize).saturating_mul(12))
    }
}

/// The first bytes, or as many as there are.
fn front(bytes: &[u8], length: usize) -> &[u8] {
    &bytes[..length.min(bytes.len())]
}

fn side(later: u8) -> Side {
    if later == 0 {
        Side::Earlier
    } else {
        Side::Later
    }
}

fn accepted(question: u8) -> Result<(), Refusal> {
    Refusal::of(question, 0).map_or(Ok(()), Err)
}

// Each call below passes the pointer and the length of slices that are borrowed as long as it runs, those that
// it may write as `&mut`; a slice's pointer is never null, and the library keeps none of them. That is all that
// it asks.
#[rustfmt::skip]
impl<'a> Store<'a> {
    /// Starts an empty store: writes the log's header, zeroes table and catalogue.
    ///
    /// Refuses by 2, 3, 4, 5.
    pub fn fresh(settings: Settings, lent: Lent<'a>) -> Result<Store<'a>, Refusal> {
        let mut store = Store::resume(Numbers::default(), lent);
        store.start(settings)?;
        Ok(store)
    }

    /// As [`fresh`](Store::fresh), in the memory that this store has. Refused, the store is without numbers.
    ///
    /// Refuses by 2, 3, 4, 5.
    pub fn start(&mut self, settings: Settings) -> Result<(), Refusal> {
        let Lent { log, table, entries, areas, .. } = &mut self.lent;
        let answer = unsafe {
            raw::yk_fresh(
                settings.order, settings.page, settings.limit,
                log.as_mut_ptr(), log.len(), table.as_mut_ptr(), table.len(),
                entries.as_mut_ptr(), entries.len(), areas.as_ptr(), areas.len(),
            )
        };
        self.take(answer)
    }

    /// Takes up the written log that the lent one starts with: makes index and table, zeroes the catalogue. Where its
    /// bytes were read from a file, [`open_bytes`](Store::open_bytes).
    ///
    /// Refuses by 1 to 5 and 17.
    pub fn open(lent: Lent<'a>) -> Result<Store<'a>, Refusal> {
        let mut store = Store::resume(Numbers::default(), lent);
        store.reopen()?;
        Ok(store)
    }

    /// As [`open`](Store::open), of the first bytes of the lent log, as many as were read into it. Behind a file that was
    /// cut, or is empty, the memory may hold another log: it is not looked at, and is space for later appends as ever.
    /// More bytes than are lent count as all of them.
    ///
    /// Refuses by 1 to 5 and 17: by 1 or 5 where bytes are missing.
    ///
    /// ```
    /// # use yokefennel::{Lent, Refusal, Settings, Store};
    /// # let (mut log, mut index, mut table) = ([0; 96], [0; 14], [0; 32]);
    /// # macro_rules! lent { () => { Lent {
    /// #     log: &mut log, index: &mut index, table: &mut table, entries: &mut [], areas: &mut []
    /// # } } }
    /// # let mut store = Store::fresh(Settings { order: 8, page: 2, limit: 4 }, lent!())?;
    /// store.insert(10, 7, 50)?; // this log is in the memory still
    /// let mut file = &b""[..];
    /// let read = std::io::Read::read(&mut file, &mut log).unwrap();
    /// assert_eq!(Store::open_bytes(lent!(), read).unwrap_err(), Refusal::Header);
    /// # assert_eq!(Store::open_bytes(lent!(), 47).unwrap_err(), Refusal::Memory);
    /// # Store::open_bytes(lent!(), 48)?.insert(20, 3, 12)?;
    /// # Ok::<(), Refusal>(())
    /// ```
    pub fn open_bytes(lent: Lent<'a>, bytes: usize) -> Result<Store<'a>, Refusal> {
        let mut store = Store::resume(Numbers::default(), lent);
        store.reopen_bytes(bytes)?;
        Ok(store)
    }

    /// As [`open`](Store::open), in the memory that this store has. Refused, the store is without numbers, and
    /// [`start`](Store::start) may follow.
    ///
    /// Refuses by 1 to 5 and 17.
    pub fn reopen(&mut self) -> Result<(), Refusal> {
        self.reopen_bytes(usize::MAX)
    }

    /// As [`open_bytes`](Store::open_bytes), in the memory that this store has. Refused, the store is without numbers,
    /// and [`start`](Store::start) may follow.
    ///
    /// Refuses by 1 to 5 and 17.
    pub fn reopen_bytes(&mut self, bytes: usize) -> Result<(), Refusal> {
        let Lent { log, index, table, entries, areas } = &mut self.lent;
        let log = front(log, bytes);
        let answer = unsafe {
            raw::yk_open(
                log.as_ptr(), log.len(), index.as_mut_ptr(), index.len(), table.as_mut_ptr(), table.len(),
                entries.as_mut_ptr(), entries.len(), areas.as_ptr(), areas.len(),
            )
        };
        self.take(answer)
    }

    /// Goes on with memory and numbers that a store left, for instance in memory that survives a restart. Nothing
    /// is looked at: ask [`audit`](Store::audit).
    pub fn resume(numbers: Numbers, lent: Lent<'a>) -> Store<'a> {
        Store { numbers, lent }
    }

    /// The numbers and the memory, given back.
    pub fn give_back(self) -> (Numbers, Lent<'a>) {
        (self.numbers, self.lent)
    }

    /// The numbers.
    pub fn numbers(&self) -> Numbers {
        self.numbers
    }

    /// The bytes of the log to save, header and records: nothing else need be. None where no store is started.
    pub fn log(&self) -> &[u8] {
        match self.numbers.order {
            0 => &[],
            _ => front(self.lent.log, 24 + 24 * self.numbers.records as usize),
        }
    }

    /// The rows of the current table.
    pub fn rows(&self) -> Rows<'_> {
        Rows::of(self.lent.table, self.numbers.live)
    }

    /// The count files held, ascending by time.
    pub fn files(&self) -> &[Entry] {
        &self.lent.entries[..(self.numbers.files as usize).min(self.lent.entries.len())]
    }

    /// Adds an absent article with a count at a time above the last.
    ///
    /// Refuses by 1, 6, 7, 9, 10, 11.
    pub fn insert(&mut self, time: u64, article: u32, count: u32) -> Result<(), Refusal> {
        let Lent { log, index, table, entries, areas } = &mut self.lent;
        let answer = unsafe {
            raw::yk_insert(
                self.numbers,
                log.as_mut_ptr(), log.len(), index.as_mut_ptr(), index.len(), table.as_mut_ptr(), table.len(),
                entries.as_ptr(), entries.len(), areas.as_ptr(), areas.len(),
                time, article, count,
            )
        };
        self.take(answer)
    }

    /// Removes a present article at a time above the last.
    ///
    /// Refuses by 1, 6, 8, 10, 11.
    pub fn delete(&mut self, time: u64, article: u32) -> Result<(), Refusal> {
        let Lent { log, index, table, entries, areas } = &mut self.lent;
        let answer = unsafe {
            raw::yk_delete(
                self.numbers,
                log.as_mut_ptr(), log.len(), index.as_mut_ptr(), index.len(), table.as_mut_ptr(), table.len(),
                entries.as_ptr(), entries.len(), areas.as_ptr(), areas.len(),
                time, article,
            )
        };
        self.take(answer)
    }

    /// Gives a present article another count, or the same, at a time above the last: two records.
    ///
    /// Refuses by 1, 6, 8, 10, 11.
    pub fn update(&mut self, time: u64, article: u32, count: u32) -> Result<(), Refusal> {
        let Lent { log, index, table, entries, areas } = &mut self.lent;
        let answer = unsafe {
            raw::yk_update(
                self.numbers,
                log.as_mut_ptr(), log.len(), index.as_mut_ptr(), index.len(), table.as_mut_ptr(), table.len(),
                entries.as_ptr(), entries.len(), areas.as_ptr(), areas.len(),
                time, article, count,
            )
        };
        self.take(answer)
    }

    /// Keeps the table of a time as a count file, so that tables near it are found sooner, with a mark that says what
    /// is to become of it. A time after the last is refused by 12, because a later request could make the file wrong:
    /// keep the last one itself, if there is one.
    ///
    /// Refuses by 1, 12, 14, 15. (Every [`Mark`] is one that a keep takes, so 18 is not met here.)
    ///
    /// ```
    /// # use yokefennel::{Entry, Lent, Mark, Refusal, Settings, Store};
    /// # let (log, index, table) = (&mut [0; 96], &mut [0; 7], &mut [0; 32]);
    /// # let (entries, areas) = (&mut [Entry::default()], &mut [0; 32]);
    /// # let mut store = Store::fresh(
    /// #     Settings { order: 8, page: 2, limit: 4 },
    /// #     Lent { log, index, table, entries, areas },
    /// # )?;
    /// store.insert(10, 7, 50)?;
    /// assert_eq!(store.keep(11, Mark::Friday), Err(Refusal::TimeAfterLast));
    /// store.keep(store.numbers().last, Mark::Friday)?;
    /// assert_eq!(store.files(), [Entry { time: 10, rows: 1, mark: 5 }]);
    /// # Ok::<(), Refusal>(())
    /// ```
    pub fn keep(&mut self, time: u64, mark: Mark) -> Result<(), Refusal> {
        let Lent { log, index, table, entries, areas } = &mut self.lent;
        let answer = unsafe {
            raw::yk_keep(
                self.numbers,
                log.as_ptr(), log.len(), index.as_ptr(), index.len(), table.as_ptr(), table.len(),
                entries.as_mut_ptr(), entries.len(), areas.as_mut_ptr(), areas.len(),
                time, mark.number(),
            )
        };
        self.take(answer)
    }

    /// Gives up the count file of a time, whatever its mark. (The name `drop` is the language's own.)
    ///
    /// Refuses by 1, 16.
    pub fn drop_file(&mut self, time: u64) -> Result<(), Refusal> {
        let Lent { log, index, table, entries, areas } = &mut self.lent;
        let answer = unsafe {
            raw::yk_drop(
                self.numbers,
                log.as_ptr(), log.len(), index.as_ptr(), index.len(), table.as_ptr(), table.len(),
                entries.as_mut_ptr(), entries.len(), areas.as_mut_ptr(), areas.len(),
                time,
            )
        };
        self.take(answer)
    }

    /// Gives up every count file with this mark, [`Mark::Friday`] or [`Mark::Sunday`], and answers how many went; none
    /// is no refusal. The files that stay close up in their order. Permanent ones go one by one, by
    /// [`drop_file`](Store::drop_file).
    ///
    /// Refuses by 1, 18.
    ///
    /// ```
    /// # use yokefennel::{Entry, Lent, Mark, Refusal, Settings, Store};
    /// # let (log, index, table) = (&mut [0; 96], &mut [0; 14], &mut [0; 32]);
    /// # let (entries, areas) = (&mut [Entry::default(); 2], &mut [0; 64]);
    /// # let mut store = Store::fresh(
    /// #     Settings { order: 8, page: 2, limit: 4 },
    /// #     Lent { log, index, table, entries, areas },
    /// # )?;
    /// store.insert(10, 7, 50)?;
    /// store.insert(20, 3, 12)?;
    /// store.keep(10, Mark::Friday)?;
    /// store.keep(20, Mark::Sunday)?;
    /// assert_eq!(store.drop_marked(Mark::Friday), Ok(1));
    /// assert_eq!(store.files(), [Entry { time: 20, rows: 2, mark: 7 }]);
    /// assert_eq!(store.drop_marked(Mark::Friday), Ok(0));
    /// assert_eq!(store.drop_marked(Mark::Permanent), Err(Refusal::WrongMark));
    /// # Ok::<(), Refusal>(())
    /// ```
    pub fn drop_marked(&mut self, mark: Mark) -> Result<u32, Refusal> {
        let Lent { log, index, table, entries, areas } = &mut self.lent;
        let answer = unsafe {
            raw::yk_drop_marked(
                self.numbers,
                log.as_ptr(), log.len(), index.as_ptr(), index.len(), table.as_ptr(), table.len(),
                entries.as_mut_ptr(), entries.len(), areas.as_mut_ptr(), areas.len(),
                mark.number(),
            )
        };
        self.numbers = answer.numbers;
        accepted(answer.question)?;
        Ok(answer.gone)
    }

    /// The position of a time: its page and its requests. A time after the last is answered as the last one.
    ///
    /// Refuses by 1.
    pub fn position(&self, time: u64) -> Result<Position, Refusal> {
        let Lent { log, index, table, entries, areas } = &self.lent;
        let answer = unsafe {
            raw::yk_position(
                self.numbers,
                log.as_ptr(), log.len(), index.as_ptr(), index.len(), table.as_ptr(), table.len(),
                entries.as_ptr(), entries.len(), areas.as_ptr(), areas.len(),
                time,
            )
        };
        accepted(answer.question)?;
        Ok(Position { page: answer.page, requests: answer.requests })
    }

    /// The table of a time, into the first 8 × limit bytes of `out`. A time after the last is answered as the last
    /// one, so the clock's time may be asked for.
    ///
    /// Refuses by 1, 13.
    ///
    /// ```
    /// # use yokefennel::{Lent, Row, Settings, Store};
    /// # let (log, index, table) = (&mut [0; 96], &mut [0; 7], &mut [0; 32]);
    /// # let lent = Lent { log, index, table, entries: &mut [], areas: &mut [] };
    /// # let mut store = Store::fresh(Settings { order: 8, page: 2, limit: 4 }, lent)?;
    /// store.insert(10, 7, 50)?; // at time 10, article 7 with count 50
    /// let (now, mut out) = (15, [0; 32]);
    /// let rows: Vec<Row> = store.table(now, &mut out)?.rows().collect();
    /// assert_eq!(rows, [Row { article: 7, count: 50 }]);
    /// # Ok::<(), yokefennel::Refusal>(())
    /// ```
    pub fn table<'o>(&self, time: u64, out: &'o mut [u8]) -> Result<Table<'o>, Refusal> {
        let Lent { log, index, table, entries, areas } = &self.lent;
        let answer = unsafe {
            raw::yk_table(
                self.numbers,
                log.as_ptr(), log.len(), index.as_ptr(), index.len(), table.as_ptr(), table.len(),
                entries.as_ptr(), entries.len(), areas.as_ptr(), areas.len(),
                time, out.as_mut_ptr(), out.len(),
            )
        };
        accepted(answer.question)?;
        let (side, requests_between) = (side(answer.later), answer.requests_between);
        Ok(Table { bytes: out, rows: answer.rows, side, requests_between })
    }

    /// The rows that the table of a time is worked out from, where they lie. A time after the last is answered as
    /// the last one.
    ///
    /// Refuses by 1.
    pub fn view(&self, time: u64) -> Result<View<'_>, Refusal> {
        let Lent { log, index, table, entries, areas } = &self.lent;
        let answer = unsafe {
            raw::yk_view(
                self.numbers,
                log.as_ptr(), log.len(), index.as_ptr(), index.len(), table.as_ptr(), table.len(),
                entries.as_ptr(), entries.len(), areas.as_ptr(), areas.len(),
                time,
            )
        };
        accepted(answer.question)?;
        let (region, place) = match answer.place {
            1 => (&**areas, Place::File(answer.area as usize)),
            2 => (&**table, Place::Current),
            _ => (&**table, Place::Empty),
        };
        let bytes = front(region.get(answer.start..).unwrap_or(&[]), answer.length);
        let (side, requests_between) = (side(answer.later), answer.requests_between);
        Ok(View { bytes, rows: answer.rows, place, side, requests_between })
    }

    /// What leads from the table of time a to that of time b, a before or after b, into the first 24 × limit
    /// bytes of `out`. The first 16 × limit bytes of `work` then hold the table of a and the table of b. A time
    /// after the last is answered as the last one.
    ///
    /// Refuses by 1, 13.
    pub fn net_change<'o>(
        &self, a: u64, b: u64, out: &'o mut [u8], work: &mut [u8],
    ) -> Result<NetChange<'o>, Refusal> {
        let Lent { log, index, table, entries, areas } = &self.lent;
        let answer = unsafe {
            raw::yk_net_change(
                self.numbers,
                log.as_ptr(), log.len(), index.as_ptr(), index.len(), table.as_ptr(), table.len(),
                entries.as_ptr(), entries.len(), areas.as_ptr(), areas.len(),
                a, b, out.as_mut_ptr(), out.len(), work.as_mut_ptr(), work.len(),
            )
        };
        accepted(answer.question)?;
        Ok(NetChange { bytes: out, entries: answer.entries })
    }

    /// The units on hand at a time: the counts of its table added up, which are the counts inserted up to then
    /// less the counts deleted. Where the audit passes they are below 2^42. A time after the last is answered as the
    /// last one.
    ///
    /// Refuses by 1.
    ///
    /// ```
    /// # use yokefennel::{Lent, Settings, Store};
    /// # let (log, index, table) = (&mut [0; 96], &mut [0; 7], &mut [0; 32]);
    /// # let lent = Lent { log, index, table, entries: &mut [], areas: &mut [] };
    /// # let mut store = Store::fresh(Settings { order: 8, page: 2, limit: 4 }, lent)?;
    /// store.insert(10, 7, 50)?; // at time 10, article 7 with count 50
    /// store.insert(20, 3, 12)?;
    /// assert_eq!([9, 10, 20, 21].map(|time| store.units(time)), [Ok(0), Ok(50), Ok(62), Ok(62)]);
    /// # Ok::<(), yokefennel::Refusal>(())
    /// ```
    pub fn units(&self, time: u64) -> Result<u64, Refusal> {
        let Lent { log, index, table, entries, areas } = &self.lent;
        let answer = unsafe {
            raw::yk_units(
                self.numbers,
                log.as_ptr(), log.len(), index.as_ptr(), index.len(), table.as_ptr(), table.len(),
                entries.as_ptr(), entries.len(), areas.as_ptr(), areas.len(),
                time,
            )
        };
        accepted(answer.question)?;
        Ok(answer.units)
    }

    /// The units at time b less those at time a, a before or after b: negative where stock fell. 0 says that the
    /// totals agree, not that the tables are the same. A time after the last is answered as the last one.
    ///
    /// Refuses by 1.
    ///
    /// ```
    /// # use yokefennel::{Lent, Settings, Store};
    /// # let (log, index, table) = (&mut [0; 96], &mut [0; 7], &mut [0; 32]);
    /// # let lent = Lent { log, index, table, entries: &mut [], areas: &mut [] };
    /// # let mut store = Store::fresh(Settings { order: 8, page: 2, limit: 4 }, lent)?;
    /// store.insert(10, 7, 50)?;
    /// store.update(30, 7, 44)?;
    /// assert_eq!((store.units_between(10, 30)?, store.units_between(30, 10)?), (-6, 6));
    /// # Ok::<(), yokefennel::Refusal>(())
    /// ```
    pub fn units_between(&self, a: u64, b: u64) -> Result<i64, Refusal> {
        let Lent { log, index, table, entries, areas } = &self.lent;
        let answer = unsafe {
            raw::yk_units_between(
                self.numbers,
                log.as_ptr(), log.len(), index.as_ptr(), index.len(), table.as_ptr(), table.len(),
                entries.as_ptr(), entries.len(), areas.as_ptr(), areas.len(),
                a, b,
            )
        };
        accepted(answer.question)?;
        Ok(answer.units)
    }

    /// Whether numbers and lent memory are such as accepted calls leave. Then all calls answer as promised.
    pub fn audit(&self) -> bool {
        let Lent { log, index, table, entries, areas } = &self.lent;
        let answer = unsafe {
            raw::yk_audit(
                self.numbers,
                log.as_ptr(), log.len(), index.as_ptr(), index.len(), table.as_ptr(), table.len(),
                entries.as_ptr(), entries.len(), areas.as_ptr(), areas.len(),
            )
        };
        answer == 1
    }

    /// Goes on with the numbers of an answer.
    fn take(&mut self, answer: raw::Change) -> Result<(), Refusal> {
        self.numbers = answer.numbers;
        Refusal::of(answer.question, answer.record).map_or(Ok(()), Err)
    }
}
