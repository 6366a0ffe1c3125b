//! A store of the crate with memory of its own, for programs that look into the memory between calls.

use super::{entry_lent, numbers_lent};
use crate::plain::Plain;
use crate::requests::Request;
use yokefennel::{Entry, Lent, Numbers, Settings, Store};

pub struct Owned {
    numbers: Numbers,
    log: Vec<u8>,
    index: Vec<u64>,
    table: Vec<u8>,
    entries: Vec<Entry>,
    areas: Vec<u8>,
}

impl Owned {
    /// An empty store with space for so many records and count files.
    pub fn fresh(settings: Settings, records: u32, files: u32) -> Owned {
        let need = settings.lengths(records, files).unwrap();
        let mut owned = Owned {
            numbers: Numbers::default(),
            log: vec![0; need.log],
            index: vec![0; need.index],
            table: vec![0; need.table],
            entries: vec![Entry::default(); need.entries],
            areas: vec![0; need.areas],
        };
        owned.calls(|store| store.start(settings)).unwrap();
        owned
    }

    /// Calls of the handle, on the numbers and the memory that the last ones left.
    pub fn calls<T>(&mut self, calls: impl FnOnce(&mut Store) -> T) -> T {
        let Owned { log, index, table, entries, areas, .. } = self;
        let mut store = Store::resume(self.numbers, Lent { log, index, table, entries, areas });
        let answer = calls(&mut store);
        self.numbers = store.numbers();
        answer
    }

    pub fn append_all(&mut self, requests: &[Request]) {
        self.calls(|store| {
            for &request in requests {
                match request {
                    Request::Insert(time, article, count) => store.insert(time, article, count).unwrap(),
                    Request::Delete(time, article) => store.delete(time, article).unwrap(),
                    Request::Update(time, article, count) => store.update(time, article, count).unwrap(),
                }
            }
        })
    }

    /// Both stores have the same numbers and the same memory.
    pub fn assert_same(&self, plain: &Plain) {
        assert_eq!(self.numbers, numbers_lent(&plain.numbers));
        assert!(self.log == plain.log && self.index == plain.index && self.table == plain.table);
        assert_eq!(self.entries, plain.entries.iter().map(entry_lent).collect::<Vec<_>>());
        assert!(self.areas == plain.areas);
    }
}
