//! 01's log by hand, through the handle.

use yokefennel::{Entry, Lent, Mark, Numbers, Place, Position, Refusal, Row, Settings, Side, Step, Store};

const SETTINGS: Settings = Settings { order: 3, page: 2, limit: 4 };

/// Times after the last, which are answered as the last one.
const LATE: [u64; 3] = [61, 1_000, u64::MAX];

#[derive(Clone, Debug, PartialEq)]
struct Memory {
    log: Vec<u8>,
    index: Vec<u64>,
    table: Vec<u8>,
    entries: Vec<Entry>,
    areas: Vec<u8>,
}

impl Memory {
    /// Memory for this many records and count files; the index has what any order needs.
    fn of(records: usize, files: usize) -> Memory {
        Memory {
            log: vec![0xA5; 24 + 24 * records],
            index: vec![0xA5; 2 * records.div_ceil(2) + 3],
            table: vec![0xA5; 32],
            entries: vec![Entry { time: 9, rows: 9, mark: 9 }; files],
            areas: vec![0xA5; 32 * files],
        }
    }

    fn lend(&mut self) -> Lent<'_> {
        Lent {
            log: &mut self.log,
            index: &mut self.index,
            table: &mut self.table,
            entries: &mut self.entries,
            areas: &mut self.areas,
        }
    }
}

fn row(article: u32, count: u32) -> Row {
    Row { article, count }
}

fn build(memory: &mut Memory) -> Store<'_> {
    let mut store = Store::fresh(SETTINGS, memory.lend()).unwrap();
    store.insert(10, 7, 50).unwrap();
    store.insert(20, 3, 12).unwrap();
    store.update(30, 7, 44).unwrap();
    store.delete(40, 3).unwrap();
    store.insert(50, 9, 5).unwrap();
    store.update(60, 9, 6).unwrap();
    store
}

fn table(store: &Store, time: u64) -> (Vec<Row>, Side, u32) {
    let mut out = [0xA5; 32];
    let table = store.table(time, &mut out).unwrap();
    (table.rows().collect(), table.side, table.requests_between)
}

/// The bytes of the table of a time, zeros after its rows included.
fn table_bytes(store: &Store, time: u64) -> [u8; 32] {
    let mut out = [0xA5; 32];
    store.table(time, &mut out).unwrap();
    out
}

fn outset(store: &Store, time: u64) -> (Place, Side, u32) {
    let view = store.view(time).unwrap();
    (view.place, view.side, view.requests_between)
}

/// The entries of a net change, with its output and workspace.
fn net_change(store: &Store, a: u64, b: u64) -> (Vec<Step>, [u8; 96], [u8; 64]) {
    let (mut out, mut work) = ([0xA5; 96], [0xA5; 64]);
    let steps = store.net_change(a, b, &mut out, &mut work).unwrap().steps().collect();
    (steps, out, work)
}

#[test]
fn log_numbers_and_positions() {
    let mut memory = Memory::of(9, 2);
    let store = build(&mut memory);
    let numbers = Numbers { order: 3, page: 2, limit: 4, records: 8, last: 60, live: 2, files: 0 };
    assert_eq!(store.numbers(), numbers);
    assert_eq!(store.log(), std::fs::read("../samples/log-by-hand.log").unwrap());
    assert_eq!(store.rows().collect::<Vec<_>>(), [row(7, 44), row(9, 6)]);
    let positions = [0, 9, 10, 29, 30, 35, 40, 60, 61, u64::MAX].map(|time| store.position(time).unwrap());
    assert_eq!(positions.map(|position| position.page), [0, 0, 0, 0, 1, 1, 2, 3, 3, 3]);
    assert_eq!(positions.map(|position| position.requests), [0, 0, 1, 2, 4, 4, 5, 8, 8, 8]);
    assert!(store.audit());
}

#[test]
fn tables_and_net_changes() {
    let mut memory = Memory::of(9, 2);
    let store = build(&mut memory);
    // 2 requests from time 0 and 6 to the last; 4 and 4; 5 and 3
    assert_eq!(table(&store, 20), (vec![row(3, 12), row(7, 50)], Side::Earlier, 2));
    assert_eq!(table(&store, 30), (vec![row(3, 12), row(7, 44)], Side::Earlier, 4));
    assert_eq!(table(&store, 45), (vec![row(7, 44)], Side::Later, 3));
    let mut out = [0; 32];
    let day = store.table(20, &mut out).unwrap();
    assert_eq!([2, 3, 4, 7, 8].map(|article| day.count(article)), [None, Some(12), None, Some(50), None]);
    assert_eq!(store.table(9, &mut out).unwrap().count(0), None);

    let (mut out, mut work) = ([0xA5; 96], [0xA5; 64]);
    let change = store.net_change(20, 45, &mut out, &mut work).unwrap();
    let steps = [Step::Delete(row(3, 12)), Step::Delete(row(7, 50)), Step::Insert(row(7, 44))];
    assert_eq!(change.steps().collect::<Vec<_>>(), steps);
    assert_eq!(change.bytes().len(), 36);
    assert_eq!(store.net_change(30, 35, &mut out, &mut work).unwrap().steps().len(), 0);
}

/// 01's totals and differences; a total is the sum of the rows shown, a difference that of two totals.
fn compare_units(store: &Store) {
    let units = [0, 9, 10, 20, 30, 40, 50, 60, 61, u64::MAX].map(|time| store.units(time).unwrap());
    assert_eq!(units, [0, 0, 50, 62, 56, 44, 49, 50, 50, 50]);
    assert_eq!((store.units_between(20, 45), store.units_between(45, 20)), (Ok(-18), Ok(18)));
    assert_eq!((store.units_between(45, 50), store.units_between(30, 35)), (Ok(5), Ok(0)));
    // the totals agree, the tables differ
    assert_eq!((store.units_between(10, 60), store.units_between(60, 10)), (Ok(0), Ok(0)));
    assert_ne!(table(store, 10).0, table(store, 60).0);
    for a in 0..=62 {
        let units = store.units(a).unwrap();
        assert_eq!(table(store, a).0.iter().map(|row| u64::from(row.count)).sum::<u64>(), units);
        for b in 0..=62 {
            let difference = store.units(b).unwrap() as i64 - units as i64;
            assert_eq!(store.units_between(a, b), Ok(difference), "{a} to {b}");
        }
    }
}

#[test]
fn units_on_hand() {
    let mut memory = Memory::of(9, 2);
    let mut store = build(&mut memory);
    // worked out from time 0, from files before and after the time, from the current table
    for files in [&[][..], &[20], &[40], &[10, 40], &[30, 60]] {
        files.iter().for_each(|&time| store.keep(time, Mark::Permanent).unwrap());
        compare_units(&store);
        files.iter().for_each(|&time| store.drop_file(time).unwrap());
    }
}

/// Three rows of the largest count come, and go.
#[test]
fn units_past_32_bits() {
    let mut memory = Memory::of(6, 0);
    let mut store = Store::fresh(SETTINGS, memory.lend()).unwrap();
    assert_eq!((store.units(0), store.units_between(0, 0)), (Ok(0), Ok(0)));
    for (time, article) in [(1, 7), (2, 3), (3, 9)] {
        store.insert(time, article, u32::MAX).unwrap();
    }
    assert_eq!(store.units(3), Ok(12_884_901_885));
    for (time, article) in [(4, 7), (5, 3), (6, 9)] {
        store.delete(time, article).unwrap();
    }
    let units = [1, 2, 3, 4, 5, 6].map(|time| store.units(time).unwrap());
    let (one, two, three) = (4_294_967_295, 8_589_934_590, 12_884_901_885);
    assert_eq!(units, [one, two, three, two, one, 0]);
    assert_eq!(store.units_between(3, 6), Ok(-12_884_901_885));
    assert_eq!(store.units_between(6, 3), Ok(12_884_901_885));
    assert_eq!((store.units_between(3, 4), store.units_between(2, 4)), (Ok(-4_294_967_295), Ok(0)));
}

#[test]
fn units_write_nothing() {
    let mut memory = Memory::of(9, 2);
    let mut store = build(&mut memory);
    store.keep(20, Mark::Permanent).unwrap();
    let (numbers, _) = store.give_back();
    let before = memory.clone();
    let store = Store::resume(numbers, memory.lend());
    compare_units(&store);
    // question 1 is asked of a late time too
    let store = Store::resume(Numbers { records: 7, ..numbers }, memory.lend());
    assert_eq!((store.units(20), store.units(61)), (Err(Refusal::Header), Err(Refusal::Header)));
    assert_eq!(store.units_between(20, 45), Err(Refusal::Header));
    assert_eq!(store.units_between(61, 61), Err(Refusal::Header));
    assert_eq!(memory, before);
}

#[test]
fn count_files_and_views() {
    let mut memory = Memory::of(9, 2);
    let mut store = build(&mut memory);
    store.keep(20, Mark::Permanent).unwrap();
    assert_eq!(store.files(), [Entry { time: 20, rows: 2, mark: 0 }]);
    // requests from 20 and to the last time: 2 and 4, a tie of 3, 4 and 2
    assert_eq!(outset(&store, 30), (Place::File(0), Side::Earlier, 2));
    assert_eq!(store.view(30).unwrap().rows().collect::<Vec<_>>(), [row(3, 12), row(7, 50)]);
    assert_eq!(outset(&store, 45), (Place::File(0), Side::Earlier, 3));
    assert_eq!(table(&store, 45), (vec![row(7, 44)], Side::Earlier, 3));
    assert_eq!(outset(&store, 50), (Place::Current, Side::Later, 2));
    assert_eq!(store.view(50).unwrap().rows().collect::<Vec<_>>(), [row(7, 44), row(9, 6)]);
    assert_eq!(store.view(0).unwrap().rows().len(), 0);
    assert_eq!(store.keep(20, Mark::Permanent), Err(Refusal::NotToKeep));
    store.keep(40, Mark::Permanent).unwrap();
    assert_eq!(store.keep(30, Mark::Permanent), Err(Refusal::CatalogueFull));
    store.drop_file(20).unwrap();
    assert_eq!(store.drop_file(20), Err(Refusal::NotKept));
    // with only 40 kept 4 and 1, with 10 as well 3 and 1
    assert_eq!(outset(&store, 30), (Place::File(0), Side::Later, 1));
    assert_eq!(table(&store, 30), (vec![row(3, 12), row(7, 44)], Side::Later, 1));
    store.keep(10, Mark::Permanent).unwrap();
    assert_eq!(outset(&store, 30), (Place::File(1), Side::Later, 1));
    assert_eq!(store.view(30).unwrap().rows().collect::<Vec<_>>(), [row(7, 44)]);
    assert_eq!(table(&store, 30), (vec![row(3, 12), row(7, 44)], Side::Later, 1));
    assert!(store.audit());
}

/// 01's case of time 61 is an answer since wish 2 of 02, with the table of 60.
#[test]
fn late_times() {
    let mut memory = Memory::of(9, 2);
    let store = build(&mut memory);
    let last = vec![row(7, 44), row(9, 6)];
    let bytes = [7, 0, 0, 0, 44, 0, 0, 0, 9, 0, 0, 0, 6, 0, 0, 0];
    for time in LATE {
        assert_eq!(store.position(time), Ok(Position { page: 3, requests: 8 }));
        // 8 requests from time 0, none from the current table
        assert_eq!(table(&store, time), (last.clone(), Side::Later, 0));
        assert_eq!(
            (&table_bytes(&store, time)[..16], &table_bytes(&store, time)[16..]),
            (&bytes[..], &[0; 16][..])
        );
        assert_eq!(outset(&store, time), (Place::Current, Side::Later, 0));
        assert_eq!(store.view(time).unwrap().rows().collect::<Vec<_>>(), last);
        assert_eq!(store.units(time), Ok(50));
        // 44 + 6 less 12 + 50, and back
        assert_eq!((store.units_between(20, time), store.units_between(time, 20)), (Ok(-12), Ok(12)));
        assert_eq!((store.units_between(0, time), store.units_between(time, 0)), (Ok(50), Ok(-50)));
    }
    assert_eq!((table(&store, 60), table_bytes(&store, 60)), (table(&store, 61), table_bytes(&store, 61)));
    assert_eq!(store.table(61, &mut [0; 32]).unwrap().count(9), Some(6));
}

#[test]
fn net_changes_of_late_times() {
    let mut memory = Memory::of(9, 2);
    let store = build(&mut memory);
    let (old, new) = ([row(3, 12), row(7, 50)], [row(7, 44), row(9, 6)]);
    let there = [Step::Delete(old[0]), Step::Delete(old[1]), Step::Insert(new[0]), Step::Insert(new[1])];
    let back = [Step::Insert(old[0]), Step::Delete(new[0]), Step::Insert(old[1]), Step::Delete(new[1])];
    let work = |a, b| [table_bytes(&store, a), table_bytes(&store, b)].concat();
    for time in LATE {
        assert_eq!(net_change(&store, 20, time), net_change(&store, 20, 60));
        assert_eq!(net_change(&store, time, 20), net_change(&store, 60, 20));
        let (steps, out, both) = net_change(&store, 20, time);
        assert_eq!((&steps[..], &out[48..], &both[..]), (&there[..], &[0; 48][..], &work(20, 60)[..]));
        let (steps, out, both) = net_change(&store, time, 20);
        assert_eq!((&steps[..], &out[48..], &both[..]), (&back[..], &[0; 48][..], &work(60, 20)[..]));
        // one table, however late
        for other in [60, 61, u64::MAX] {
            for (a, b) in [(time, other), (other, time)] {
                let (steps, out, both) = net_change(&store, a, b);
                assert_eq!((steps.len(), out, &both[..]), (0, [0; 96], &work(60, 60)[..]));
                assert_eq!(store.units_between(a, b), Ok(0));
            }
        }
    }
}

/// A count file of the last time goes before the current table, for late times too.
#[test]
fn a_file_of_the_last_time() {
    let mut memory = Memory::of(9, 2);
    let mut store = build(&mut memory);
    let last = vec![row(7, 44), row(9, 6)];
    for (kept, file) in [(60, 0), (20, 1)] {
        store.keep(kept, Mark::Permanent).unwrap();
        for time in [60].into_iter().chain(LATE) {
            assert_eq!(outset(&store, time), (Place::File(file), Side::Earlier, 0));
            assert_eq!(store.view(time).unwrap().rows().collect::<Vec<_>>(), last);
            assert_eq!(table(&store, time), (last.clone(), Side::Earlier, 0));
        }
    }
    compare_units(&store);
    // with only 20 kept, 6 requests from it and none from the current table
    store.drop_file(60).unwrap();
    assert_eq!(outset(&store, 61), (Place::Current, Side::Later, 0));
}

/// A time that was late is answered anew after a further request.
#[test]
fn no_late_time_is_remembered() {
    let mut memory = Memory::of(9, 2);
    let mut store = build(&mut memory);
    let (old, new) = (vec![row(7, 44), row(9, 6)], vec![row(7, 44)]);
    assert_eq!((table(&store, 70).0, table(&store, 80).0), (old.clone(), old.clone()));
    store.delete(70, 9).unwrap();
    // 69 has one request between it and the current table, 70 and later times have none
    assert_eq!(table(&store, 69), (old, Side::Later, 1));
    assert_eq!(outset(&store, 69), (Place::Current, Side::Later, 1));
    assert_eq!(store.position(69), Ok(Position { page: 3, requests: 8 }));
    for time in [70, 71, 80, u64::MAX] {
        assert_eq!(table(&store, time), (new.clone(), Side::Later, 0));
        assert_eq!(store.position(time), Ok(Position { page: 4, requests: 9 }));
        assert_eq!((store.units(time), store.units_between(69, time)), (Ok(44), Ok(-6)));
        assert_eq!(net_change(&store, 69, time).0, [Step::Delete(row(9, 6))]);
    }
    assert!(store.audit());
}

/// The largest time there is: late, then that of a request.
#[test]
fn the_largest_time() {
    let mut memory = Memory::of(2, 1);
    let mut store = Store::fresh(SETTINGS, memory.lend()).unwrap();
    store.insert(u64::MAX - 1, 7, 50).unwrap();
    assert_eq!(
        (store.units(u64::MAX), store.keep(u64::MAX, Mark::Permanent)),
        (Ok(50), Err(Refusal::TimeAfterLast))
    );
    store.insert(u64::MAX, 3, 12).unwrap();
    assert_eq!((store.units(u64::MAX - 1), store.units(u64::MAX)), (Ok(50), Ok(62)));
    assert_eq!(store.keep(u64::MAX, Mark::Permanent), Ok(()));
    assert_eq!(outset(&store, u64::MAX), (Place::File(0), Side::Earlier, 0));
}

/// With no record every time is answered as time 0.
#[test]
fn times_of_an_empty_store() {
    let mut memory = Memory::of(9, 2);
    let mut store = Store::fresh(SETTINGS, memory.lend()).unwrap();
    for time in [0, 1, u64::MAX] {
        assert_eq!(store.position(time), Ok(Position { page: 0, requests: 0 }));
        assert_eq!((table(&store, time), table_bytes(&store, time)), ((vec![], Side::Earlier, 0), [0; 32]));
        assert_eq!(outset(&store, time), (Place::Empty, Side::Earlier, 0));
        assert_eq!((store.view(time).unwrap().rows().len(), store.units(time)), (0, Ok(0)));
        for other in [0, 1, u64::MAX] {
            assert_eq!(net_change(&store, time, other), (vec![], [0; 96], [0; 64]));
            assert_eq!(store.units_between(time, other), Ok(0));
        }
    }
    assert_eq!(store.keep(0, Mark::Permanent), Err(Refusal::NotToKeep));
    assert_eq!(store.keep(1, Mark::Permanent), Err(Refusal::TimeAfterLast));
    assert_eq!(store.keep(u64::MAX, Mark::Permanent), Err(Refusal::TimeAfterLast));
    assert!(store.audit() && store.files().is_empty());
}

#[test]
fn refusals_change_nothing() {
    let mut memory = Memory::of(9, 2);
    let mut store = build(&mut memory);
    let numbers = store.numbers();
    assert_eq!(store.insert(60, 1, 1), Err(Refusal::TimeNotAbove));
    assert_eq!(store.insert(61, 7, 1), Err(Refusal::ArticlePresent));
    assert_eq!(store.delete(61, 3), Err(Refusal::ArticleAbsent));
    assert_eq!(store.update(61, 9, 7), Err(Refusal::LogFull));
    // only a keep is refused a time after the last
    assert_eq!(LATE.map(|time| store.keep(time, Mark::Permanent)), [Err(Refusal::TimeAfterLast); 3]);
    assert_eq!(store.table(20, &mut [0; 31]).unwrap_err(), Refusal::OutputShort);
    assert_eq!(store.table(61, &mut [0; 31]).unwrap_err(), Refusal::OutputShort);
    assert_eq!(store.net_change(20, 45, &mut [0; 96], &mut []).unwrap_err(), Refusal::OutputShort);
    assert_eq!(store.net_change(20, 61, &mut [0; 95], &mut [0; 64]).unwrap_err(), Refusal::OutputShort);
    assert_eq!(store.net_change(61, 20, &mut [0; 96], &mut [0; 63]).unwrap_err(), Refusal::OutputShort);
    assert_eq!(store.numbers(), numbers);
    assert!(store.audit());
}

#[test]
fn starts_that_are_refused() {
    let settings = |order, page, limit| Settings { order, page, limit };
    let mut memory = Memory::of(9, 2);
    assert_eq!(Store::fresh(settings(1, 2, 4), memory.lend()).unwrap_err(), Refusal::Order);
    assert_eq!(Store::fresh(settings(3, 65, 4), memory.lend()).unwrap_err(), Refusal::PageSize);
    assert_eq!(Store::fresh(settings(3, 2, 0), memory.lend()).unwrap_err(), Refusal::RowLimit);
    assert_eq!(Store::fresh(settings(3, 2, 5), memory.lend()).unwrap_err(), Refusal::Memory);
    assert_eq!(Store::open(memory.lend()).unwrap_err(), Refusal::Header);
}

/// A log if there is one, and else a fresh store, in one function.
fn open_or_fresh(settings: Settings, lent: Lent<'_>) -> Result<Store<'_>, Refusal> {
    let mut store = Store::resume(Numbers::default(), lent);
    if store.reopen().is_err() {
        store.start(settings)?;
    }
    Ok(store)
}

#[test]
fn open_else_fresh() {
    let mut memory = Memory::of(9, 2);
    assert_eq!(open_or_fresh(Settings { order: 1, ..SETTINGS }, memory.lend()).unwrap_err(), Refusal::Order);
    let mut store = open_or_fresh(SETTINGS, memory.lend()).unwrap();
    assert!(store.audit() && store.numbers().records == 0);
    store.insert(10, 7, 50).unwrap();
    assert_eq!(open_or_fresh(SETTINGS, memory.lend()).unwrap().numbers().records, 1);
}

/// A start or an opening that is refused leaves the handle without numbers; the log can be opened again.
#[test]
fn refused_in_the_handle() {
    let mut memory = Memory::of(9, 2);
    let mut store = build(&mut memory);
    let (numbers, saved) = (store.numbers(), store.log().to_vec());
    assert_eq!(store.start(Settings { limit: 0, ..SETTINGS }), Err(Refusal::RowLimit));
    assert_eq!((store.numbers(), store.log().len()), (Numbers::default(), 0));
    assert_eq!(store.insert(61, 1, 1), Err(Refusal::Header));
    store.reopen().unwrap();
    assert!(store.audit() && store.numbers() == numbers && store.log() == saved);
    store.start(SETTINGS).unwrap();
    assert!(store.audit() && store.log().len() == 24);
}

#[test]
fn opening_and_a_wrong_record() {
    let mut memory = Memory::of(9, 2);
    build(&mut memory);
    let (index, table) = (memory.index.clone(), memory.table.clone());
    memory.index.fill(0xA5);
    memory.table.fill(0xA5);
    assert!(Store::open(memory.lend()).unwrap().audit());
    assert!(memory.index == index && memory.table == table, "the same to the byte");
    // bytes of the log that are damaged, and the record told: its length, the header's last time, a count
    let (length, last, count) = (|k: usize| 24 + 24 * k, 16, |k: usize| 24 + 24 * k + 20);
    let damages: [(&[usize], u32); 6] = [
        (&[count(4)], 4),
        (&[last], 8),
        (&[length(7), length(2)], 2),
        (&[length(7), last], 7),
        // an insertion with another count is legal; the deletion that repeats the true one is not
        (&[count(1)], 4),
        (&[count(0)], 2),
    ];
    for (places, record) in damages {
        places.iter().for_each(|&place| memory.log[place] ^= 1);
        assert_eq!(Store::open(memory.lend()).unwrap_err(), Refusal::WrongRecord { record });
        places.iter().for_each(|&place| memory.log[place] ^= 1);
    }
    assert!(Store::open(memory.lend()).unwrap().audit());
}

/// What docs/GUIDE.md advises at 17: the records before the first wrong one are a legal log.
#[test]
fn the_records_before_a_wrong_one() {
    for wrong in 0..8usize {
        let mut memory = Memory::of(9, 2);
        build(&mut memory);
        memory.log[24 + 24 * wrong] = 0;
        let refusal = Store::open(memory.lend()).unwrap_err();
        assert_eq!(refusal, Refusal::WrongRecord { record: wrong as u32 });
        memory.log[12..16].copy_from_slice(&(wrong as u32).to_le_bytes());
        let time = 24 * wrong + 8;
        let last = if wrong == 0 { [0; 8] } else { memory.log[time..time + 8].try_into().unwrap() };
        memory.log[16..24].copy_from_slice(&last);
        let store = Store::open(memory.lend()).unwrap();
        assert!(store.audit() && store.numbers().records == wrong as u32);
    }
}

#[test]
fn no_count_files_and_nothing_lent() {
    let mut memory = Memory::of(9, 0);
    let mut store = build(&mut memory);
    assert!(store.audit() && store.files().is_empty());
    assert_eq!(store.keep(20, Mark::Permanent), Err(Refusal::CatalogueFull));
    assert_eq!(table(&store, 20).0, [row(3, 12), row(7, 50)]);
    compare_units(&store);
    let nothing = || Lent { log: &mut [], index: &mut [], table: &mut [], entries: &mut [], areas: &mut [] };
    assert_eq!(Store::fresh(SETTINGS, nothing()).unwrap_err(), Refusal::Memory);
    assert_eq!(Store::open(nothing()).unwrap_err(), Refusal::Header);
    let none = Store::resume(Numbers::default(), nothing());
    assert!(!none.audit() && none.log().is_empty());
    assert_eq!((none.units(0), none.units_between(0, 0)), (Err(Refusal::Header), Err(Refusal::Header)));
}

/// Every byte of every region wrong in turn: the audit sees it, and no call leaves the memory or panics.
#[test]
fn damaged_memory() {
    let mut memory = Memory::of(9, 2);
    let mut store = build(&mut memory);
    store.keep(20, Mark::Permanent).unwrap();
    let (numbers, _) = store.give_back();
    let (mut out, mut work) = ([0; 96], [0; 64]);
    for (region, length) in [(0, 24 + 24 * 8), (1, 6), (2, 32), (3, 1), (4, 32), (5, 2)] {
        for place in 0..length {
            let damage = |memory: &mut Memory| match region {
                0 => memory.log[place] ^= 0x81,
                1 => memory.index[place] ^= 0x81,
                2 => memory.table[place] ^= 0x81,
                3 => memory.entries[place].rows ^= 0x81,
                4 => memory.areas[place] ^= 0x81,
                // of the one file, then of the entry behind it
                _ => memory.entries[place].mark ^= 0x81,
            };
            damage(&mut memory);
            let store = Store::resume(numbers, memory.lend());
            assert!(!store.audit(), "region {region}, place {place}");
            for time in [0, 15, 30, 60, u64::MAX] {
                let _ = store.view(time).map(|view| view.rows().count());
                let _ = store.table(time, &mut out).map(|table| table.rows().count());
                let _ = store.net_change(time, 45, &mut out, &mut work).map(|change| change.steps().count());
                let _ = (store.units(time), store.units_between(time, 45));
            }
            damage(&mut memory);
        }
    }
    assert!(Store::resume(numbers, memory.lend()).audit());
}

#[test]
fn stores_go_to_threads() {
    fn sendable<T: Send + Sync>(_: &T) {}
    let mut memory = Memory::of(9, 2);
    let store = build(&mut memory);
    sendable(&store);
    std::thread::scope(|scope| {
        let asked = [10, 20, 45].map(|time| {
            let store = &store;
            scope.spawn(move || table(store, time).0.len())
        });
        assert_eq!(asked.map(|thread| thread.join().unwrap()), [1, 2, 1]);
    });
}

#[test]
fn archive_and_crate_have_one_version() {
    let part = |text: &str| text.parse::<u32>().unwrap();
    let (major, minor) = (part(env!("CARGO_PKG_VERSION_MAJOR")), part(env!("CARGO_PKG_VERSION_MINOR")));
    assert_eq!(yokefennel::version(), 65_536 * major + 256 * minor + part(env!("CARGO_PKG_VERSION_PATCH")));
}
