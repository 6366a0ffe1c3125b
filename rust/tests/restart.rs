//! A restart: the log saved, and a file of it, whole, cut or empty, read into memory that held a log before. What was read is
//! opened and nothing behind it, and the store then has all of its memory.

use std::io::Read;
use yokefennel::{Entry, Lent, Numbers, Refusal, Settings, Store};

const SETTINGS: Settings = Settings { order: 5, page: 7, limit: 300 };
const RECORDS: u32 = 700;

/// Records that there is space for behind the saved ones.
const SPARE: u32 = 2;

#[derive(Clone, Debug, PartialEq)]
struct Memory {
    log: Vec<u8>,
    index: Vec<u64>,
    table: Vec<u8>,
    entries: Vec<Entry>,
    areas: Vec<u8>,
}

impl Memory {
    fn new() -> Memory {
        let need = SETTINGS.lengths(RECORDS + SPARE, 1).unwrap();
        Memory {
            log: vec![0xA5; need.log],
            index: vec![0xA5; need.index],
            table: vec![0xA5; need.table],
            entries: vec![Entry { time: 9, rows: 9, mark: 9 }; need.entries],
            areas: vec![0xA5; need.areas],
        }
    }

    fn lend(&mut self) -> Lent<'_> {
        Lent {
            log: &mut self.log,
            index: &mut self.index,
            table: &mut self.table,
            entries: &mut self.entries,
            areas: &mut self.areas,
        }
    }

    /// Reads a file into the log; what lies behind it stays.
    fn read(&mut self, mut file: &[u8]) -> usize {
        file.read(&mut self.log).unwrap()
    }
}

/// 300 articles come, and their counts change until there are so many records.
fn saved(memory: &mut Memory) -> Vec<u8> {
    let mut store = Store::fresh(SETTINGS, memory.lend()).unwrap();
    let article = |k: u32| k.wrapping_mul(2_654_435_761);
    (1..=300).for_each(|k| store.insert(k.into(), article(k), k).unwrap());
    (301..=500).for_each(|k| store.update(k.into(), article(k - 300), k).unwrap());
    assert_eq!((store.numbers().records, store.log().len()), (RECORDS, 24 + 24 * RECORDS as usize));
    store.log().to_vec()
}

#[test]
fn a_cut_file_is_refused() {
    let mut memory = Memory::new();
    let saved = saved(&mut memory);
    let lengths = (0..100).chain((100..saved.len()).step_by(97)).chain([saved.len() - 1]);
    for length in lengths {
        memory.log[..saved.len()].copy_from_slice(&saved);
        let read = memory.read(&saved[..length]);
        let (before, refusal) = (memory.clone(), if length < 24 { Refusal::Header } else { Refusal::Memory });
        assert_eq!(Store::open_bytes(memory.lend(), read).unwrap_err(), refusal, "{length} bytes");
        let mut store = Store::resume(Numbers::default(), memory.lend());
        assert_eq!(store.reopen_bytes(read), Err(refusal), "{length} bytes");
        assert_eq!((store.numbers(), store.log()), (Numbers::default(), &[][..]));
        assert_eq!(memory, before, "{length} bytes");
        // why the bytes must be told: all of the log is the old one, whole
        assert!(Store::open(memory.lend()).is_ok());
    }
}

#[test]
fn a_whole_file_has_space_behind_it() {
    let mut memory = Memory::new();
    let saved = saved(&mut memory);
    let mut memory = Memory::new();
    let read = memory.read(&saved);
    let mut store = Store::open_bytes(memory.lend(), read).unwrap();
    assert!(store.audit() && store.log() == saved);
    store.update(501, store.rows().next().unwrap().article, 9).unwrap();
    assert!(store.audit() && store.log().len() == saved.len() + 48);
    let first = store.rows().next().unwrap().article;
    assert_eq!(store.delete(502, first), Err(Refusal::LogFull));
}

#[test]
fn a_shorter_log_where_a_longer_one_was() {
    let mut memory = Memory::new();
    let saved = saved(&mut memory);
    let mut few = saved[..24 + 24 * 40].to_vec();
    few[12..16].copy_from_slice(&40u32.to_le_bytes());
    few[16..24].copy_from_slice(&40u64.to_le_bytes());
    let read = memory.read(&few);
    assert_eq!(Store::open_bytes(memory.lend(), read - 1).unwrap_err(), Refusal::Memory);
    let mut store = Store::open_bytes(memory.lend(), read).unwrap();
    assert!(store.audit() && store.log() == few);
    (41..=300).for_each(|k| store.insert(k, k as u32, 1).unwrap());
    assert!(store.audit() && store.numbers().records == 300);
}

#[test]
fn more_bytes_than_are_lent_count_as_all() {
    let mut memory = Memory::new();
    saved(&mut memory);
    assert_eq!(Store::open_bytes(memory.lend(), usize::MAX).unwrap().numbers().records, RECORDS);
}
