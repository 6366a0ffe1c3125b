//! A week with a handheld counter: shifts of counting, a past day's table and its units, Friday's deletions, the
//! table by the clock, what a wholesaler gets, the count files that go on Friday, and the log written to a file and
//! opened again. The argument is the file to write.
//!
//!     YK_LIB_DIR=$PWD/target/staticlib cargo run --manifest-path rust/Cargo.toml --example shift week.log

use std::error::Error;
use std::{env, fs};
use yokefennel::{Entry, Lengths, Lent, Mark, Refusal, Settings, Step, Store};

// The maker's choice: settings, and how much the store is to hold.
const SETTINGS: Settings = Settings { order: 8, page: 16, limit: 100 };
const RECORDS: u32 = 1_000;
const FILES: u32 = 2;

struct Memory {
    log: Vec<u8>,
    index: Vec<u64>,
    table: Vec<u8>,
    entries: Vec<Entry>,
    areas: Vec<u8>,
}

impl Memory {
    fn new(need: Lengths) -> Memory {
        Memory {
            log: vec![0; need.log],
            index: vec![0; need.index],
            table: vec![0; need.table],
            entries: vec![Entry::default(); need.entries],
            areas: vec![0; need.areas],
        }
    }

    fn lend(&mut self) -> Lent<'_> {
        Lent {
            log: &mut self.log,
            index: &mut self.index,
            table: &mut self.table,
            entries: &mut self.entries,
            areas: &mut self.areas,
        }
    }
}

const MONDAY: u64 = 1;
const TUESDAY: u64 = 2;
const WEDNESDAY: u64 = 3;
const THURSDAY: u64 = 4;
const FRIDAY: u64 = 5;

/// This maker's unit of time is the minute; Monday is day 1.
fn at(day: u64, hour: u64, minute: u64) -> u64 {
    (day * 24 + hour) * 60 + minute
}

fn count_the_week(store: &mut Store) -> Result<(), Refusal> {
    store.insert(at(MONDAY, 8, 5), 4711, 20)?;
    store.insert(at(MONDAY, 8, 9), 4712, 12)?;
    store.insert(at(MONDAY, 8, 20), 4650, 7)?;
    store.update(at(TUESDAY, 9, 0), 4711, 15)?;
    store.update(at(WEDNESDAY, 9, 30), 4650, 4)?;
    store.insert(at(THURSDAY, 10, 0), 4800, 30)?;
    store.update(at(THURSDAY, 16, 45), 4711, 9)
}

/// What is no longer sold leaves on Friday. Thursday's last table is asked for often until the wholesaler has
/// it, so it is kept before, to go on Friday too; Tuesday's is asked for all year, and stays.
fn friday(store: &mut Store) -> Result<(), Refusal> {
    store.keep(at(TUESDAY, 9, 0), Mark::Permanent)?;
    store.keep(at(THURSDAY, 16, 45), Mark::Friday)?;
    store.delete(at(FRIDAY, 8, 0), 4712)?;
    store.delete(at(FRIDAY, 8, 1), 4650)?;
    store.insert(at(FRIDAY, 8, 30), 4900, 10)
}

fn print_table(store: &Store, name: &str, time: u64, out: &mut [u8]) -> Result<(), Refusal> {
    let rows = store.table(time, out)?.rows();
    println!("{name}: {} articles", rows.len());
    for row in rows {
        println!("  {}: {}", row.article, row.count);
    }
    println!("  {} units", store.units(time)?);
    Ok(())
}

fn print_net_change(
    store: &Store,
    name: &str,
    from: u64,
    to: u64,
    out: &mut [u8],
    work: &mut [u8],
) -> Result<(), Refusal> {
    let steps = store.net_change(from, to, out, work)?.steps();
    println!("{name}: {} entries, {:+} units", steps.len(), store.units_between(from, to)?);
    for step in steps {
        match step {
            Step::Delete(row) => println!("  delete {}: {}", row.article, row.count),
            Step::Insert(row) => println!("  insert {}: {}", row.article, row.count),
        }
    }
    Ok(())
}

fn main() -> Result<(), Box<dyn Error>> {
    let file = env::args().nth(1).ok_or("usage: shift FILE")?;
    let need = SETTINGS.lengths(RECORDS, FILES)?;
    let (mut out, mut work) = (vec![0; need.out], vec![0; need.work]);
    let mut memory = Memory::new(need);
    let mut store = Store::fresh(SETTINGS, memory.lend())?;
    count_the_week(&mut store)?;
    print_table(&store, "Tuesday evening", at(TUESDAY, 18, 0), &mut out)?;
    friday(&mut store)?;
    // The clock has gone on since the last request: such a time is answered as that of the last request.
    let (thursday, now) = (at(THURSDAY, 16, 45), at(FRIDAY, 8, 45));
    print_table(&store, "now", now, &mut out)?;
    print_net_change(&store, "Thursday to Friday", thursday, now, &mut out, &mut work)?;
    let gone = store.drop_marked(Mark::Friday)?;
    println!("count files: {gone} went on Friday, {} left", store.files().len());

    if let Err(refusal) = store.insert(at(FRIDAY, 9, 0), 4711, 8) {
        println!("inserting 4711 is {refusal}");
    }

    fs::write(&file, store.log())?;
    println!("saved {} bytes", store.log().len());
    // The memory still holds the log: as many bytes as were read are opened, and not what lies behind them.
    let saved = fs::read(&file)?;
    memory.log.get_mut(..saved.len()).ok_or("the file is longer than the lent log")?.copy_from_slice(&saved);
    let mut opened = Store::open_bytes(memory.lend(), saved.len())?;
    let audit = if opened.audit() { "yes" } else { "no" };
    println!("opened {} records, audit says {audit}", opened.numbers().records);
    opened.update(at(FRIDAY, 9, 0), 4711, 8)?;
    print_table(&opened, "Tuesday evening, from the file", at(TUESDAY, 18, 0), &mut out)?;
    Ok(())
}
