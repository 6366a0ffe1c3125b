//! Keep and drop a count file (01, "Count files"), and delete those with a mark (02, wish 3).

use super::{ask, Refusal, Store};
use crate::mark::{MARKS, TO_DELETE};
use crate::outset::Entry;
use crate::table::{table_bytes, table_length};

/// A count file: its entry and the 8 × R bytes of its area.
type CountFile = (Entry, Vec<u8>);

impl Store {
    pub fn keep(&mut self, t: u64, mark: u32) -> Result<(), Refusal> {
        ask(self.question_1(), 1)?;
        ask(t <= self.numbers.last, 12)?;
        ask(MARKS.contains(&mark), 18)?;
        ask(t != 0 && !self.is_kept(t), 14)?;
        ask((self.numbers.files as usize) < self.capacity(), 15)?;
        let rows = self.rows_at(t);
        let entry = Entry { time: t, rows: rows.len() as u32, mark };
        let mut files = self.count_files();
        let place = files.iter().filter(|(kept, _)| kept.time < t).count();
        files.insert(place, (entry, table_bytes(self.numbers.row_limit, &rows)));
        self.write_count_files(files);
        Ok(())
    }

    /// Drop a count file, whatever its mark. (The name `drop` is the language's own.)
    pub fn drop_file(&mut self, t: u64) -> Result<(), Refusal> {
        ask(self.question_1(), 1)?;
        ask(self.is_kept(t), 16)?;
        let mut files = self.count_files();
        let place = files.iter().position(|(kept, _)| kept.time == t).unwrap();
        files.remove(place);
        self.close_up(files);
        Ok(())
    }

    /// "One new call deletes every file with a given mark […] and answers how many went; none is a fine answer."
    pub fn drop_marked(&mut self, mark: u32) -> Result<u32, Refusal> {
        ask(self.question_1(), 1)?;
        ask(TO_DELETE.contains(&mark), 18)?;
        let before = self.numbers.files;
        let mut files = self.count_files();
        files.retain(|(entry, _)| entry.mark != mark);
        self.close_up(files);
        Ok(before - self.numbers.files)
    }

    pub fn is_kept(&self, t: u64) -> bool {
        self.kept().iter().any(|entry| entry.time == t)
    }

    /// Area i: 8 × R bytes.
    pub(crate) fn area(&self, i: usize) -> std::ops::Range<usize> {
        let length = table_length(self.numbers.row_limit);
        i * length..(i + 1) * length
    }

    fn count_files(&self) -> Vec<CountFile> {
        let file = |(i, entry): (usize, &Entry)| (*entry, self.memory.areas[self.area(i)].to_vec());
        self.kept().iter().enumerate().map(file).collect()
    }

    /// "Closing up the rest in order with zeros in the entries and areas set free."
    fn close_up(&mut self, rest: Vec<CountFile>) {
        let before = self.numbers.files as usize;
        self.write_count_files(rest);
        for freed in self.numbers.files as usize..before {
            self.memory.catalogue[freed] = Entry::default();
            let area = self.area(freed);
            self.memory.areas[area].fill(0);
        }
    }

    fn write_count_files(&mut self, files: Vec<CountFile>) {
        self.numbers.files = files.len() as u32;
        for (i, (entry, bytes)) in files.into_iter().enumerate() {
            self.memory.catalogue[i] = entry;
            let area = self.area(i);
            self.memory.areas[area].copy_from_slice(&bytes);
        }
    }
}
