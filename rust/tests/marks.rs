//! Marks of count files over 01's log, wish 3 of 02: keeping with each mark, dropping by mark and by time, 18 and what
//! goes before and after it, and the audit. After each call all lent memory is compared.

use yokefennel::{raw, Entry, Lent, Mark, Numbers, Place, Refusal, Row, Settings, Side, Step, Store};
use Mark::{Friday, Permanent, Sunday};

const SETTINGS: Settings = Settings { order: 3, page: 2, limit: 4 };
const MARKS: [Mark; 3] = [Permanent, Friday, Sunday];

/// Six count files; two entries and five bytes of the areas lie past that.
const FILES: usize = 6;

/// What memory holds that no call has written.
const UNTOUCHED: u8 = 0xEE;
const NO_ENTRY: Entry =
    Entry { time: 0xEEEE_EEEE_EEEE_EEEE, rows: 0xEEEE_EEEE, mark: u32::from_le_bytes([UNTOUCHED; 4]) };

/// Neither 0, 5 nor 7; some are 0, 5 or 7 in their low bytes.
const WRONG: [u32; 19] = [
    1, 2, 3, 4, 6, 8, 9, 57, 255, 256, 261, 263, 65_536, 65_541, 0x5000000, 0x7000000, 0x80000005,
    0x80000007, 0xFFFFFFFF,
];

/// The tables of 01's log, each from its time on.
const DAYS: [(u64, &[(u32, u32)]); 7] = [
    (0, &[]),
    (10, &[(7, 50)]),
    (20, &[(3, 12), (7, 50)]),
    (30, &[(3, 12), (7, 44)]),
    (40, &[(7, 44)]),
    (50, &[(7, 44), (9, 5)]),
    (60, &[(7, 44), (9, 6)]),
];

fn rows_of(time: u64) -> &'static [(u32, u32)] {
    DAYS.iter().rfind(|day| day.0 <= time).unwrap().1
}

/// Time and mark of a count file.
type File = (u64, Mark);

#[derive(Clone, Debug, PartialEq)]
struct Memory {
    log: Vec<u8>,
    index: Vec<u64>,
    table: Vec<u8>,
    entries: Vec<Entry>,
    areas: Vec<u8>,
}

impl Memory {
    fn new() -> Memory {
        Memory {
            log: vec![UNTOUCHED; 24 + 24 * 8],
            index: vec![NO_ENTRY.time; 6],
            table: vec![UNTOUCHED; 32],
            entries: vec![NO_ENTRY; FILES + 2],
            areas: vec![UNTOUCHED; 32 * FILES + 5],
        }
    }

    fn lend(&mut self) -> Lent<'_> {
        Lent {
            log: &mut self.log,
            index: &mut self.index,
            table: &mut self.table,
            entries: &mut self.entries,
            areas: &mut self.areas,
        }
    }
}

/// A store of 01's log that can be looked into between calls.
struct World {
    numbers: Numbers,
    memory: Memory,
    /// as it was without files
    start: Memory,
    /// files held at once until now: areas from there on are untouched
    most: usize,
}

impl World {
    fn new() -> World {
        let mut memory = Memory::new();
        let mut store = Store::fresh(SETTINGS, memory.lend()).unwrap();
        store.insert(10, 7, 50).unwrap();
        store.insert(20, 3, 12).unwrap();
        store.update(30, 7, 44).unwrap();
        store.delete(40, 3).unwrap();
        store.insert(50, 9, 5).unwrap();
        store.update(60, 9, 6).unwrap();
        let numbers = store.numbers();
        World { numbers, start: memory.clone(), memory, most: 0 }
    }

    /// These files, kept from the last to the first, so that each keep moves all others up.
    fn with(files: &[File]) -> World {
        let mut world = World::new();
        for &(time, mark) in files.iter().rev() {
            assert_eq!(world.call(|store| store.keep(time, mark)), Ok(()));
        }
        world.holds(files);
        world
    }

    fn call<T>(&mut self, call: impl FnOnce(&mut Store) -> T) -> T {
        let mut store = Store::resume(self.numbers, self.memory.lend());
        let answer = call(&mut store);
        self.numbers = store.numbers();
        answer
    }

    /// The keep with any number for a mark and for numbers. Only what is refused is asked so.
    fn refused_keep(&mut self, numbers: Numbers, time: u64, mark: u32) -> u8 {
        let Memory { log, index, table, entries, areas } = &mut self.memory;
        // SAFETY: pointers and lengths are those of slices, which do not overlap.
        let answer = unsafe {
            raw::yk_keep(
                numbers,
                log.as_ptr(),
                log.len(),
                index.as_ptr(),
                index.len(),
                table.as_ptr(),
                table.len(),
                entries.as_mut_ptr(),
                entries.len(),
                areas.as_mut_ptr(),
                areas.len(),
                time,
                mark,
            )
        };
        assert_eq!((answer.numbers, answer.record), (numbers, 0));
        answer.question
    }

    /// The marked deletion, likewise.
    fn refused_drop(&mut self, numbers: Numbers, mark: u32) -> u8 {
        let Memory { log, index, table, entries, areas } = &mut self.memory;
        // SAFETY: as above.
        let answer = unsafe {
            raw::yk_drop_marked(
                numbers,
                log.as_ptr(),
                log.len(),
                index.as_ptr(),
                index.len(),
                table.as_ptr(),
                table.len(),
                entries.as_mut_ptr(),
                entries.len(),
                areas.as_mut_ptr(),
                areas.len(),
                mark,
            )
        };
        assert_eq!((answer.numbers, answer.gone), (numbers, 0));
        answer.question
    }

    fn audit(&mut self) -> bool {
        self.call(|store| store.audit())
    }

    /// Entries and areas hold these files and nothing else: zeros behind them in the catalogue and in each area that
    /// ever held a file, and past those what was there at the start. Log, index and table are as they were.
    fn holds(&mut self, files: &[File]) {
        self.most = self.most.max(files.len());
        let mut wanted = self.start.clone();
        wanted.entries[..FILES].fill(Entry::default());
        wanted.areas[..32 * self.most].fill(0);
        for (i, &(time, mark)) in files.iter().enumerate() {
            let rows = rows_of(time);
            wanted.entries[i] = Entry { time, rows: rows.len() as u32, mark: mark.number() };
            for (k, &(article, count)) in rows.iter().enumerate() {
                let place = 32 * i + 8 * k;
                wanted.areas[place..place + 4].copy_from_slice(&article.to_le_bytes());
                wanted.areas[place + 4..place + 8].copy_from_slice(&count.to_le_bytes());
            }
        }
        assert_eq!(self.memory, wanted);
        let numbers =
            Numbers { order: 3, page: 2, limit: 4, records: 8, last: 60, live: 2, files: files.len() as u32 };
        assert_eq!(self.numbers, numbers);
        self.call(|store| {
            assert!(store.audit());
            let held: Vec<_> = store.files().iter().map(|file| (file.time, file.marked().unwrap())).collect();
            assert_eq!(held, files);
        });
    }
}

#[test]
fn keep_with_each_mark() {
    let mut world = World::new();
    world.holds(&[]);
    world.call(|store| store.keep(20, Friday)).unwrap();
    world.holds(&[(20, Friday)]);
    world.call(|store| store.keep(40, Permanent)).unwrap();
    world.holds(&[(20, Friday), (40, Permanent)]);
    world.call(|store| store.keep(10, Sunday)).unwrap();
    world.holds(&[(10, Sunday), (20, Friday), (40, Permanent)]);
    // before the first request, and at the last
    world.call(|store| store.keep(5, Friday)).unwrap();
    world.call(|store| store.keep(60, Sunday)).unwrap();
    world.holds(&[(5, Friday), (10, Sunday), (20, Friday), (40, Permanent), (60, Sunday)]);
}

/// 1, 12, 18, 14 and 15, in this order; nothing changes.
#[test]
fn questions_of_a_keep() {
    let files = [(10, Sunday), (20, Friday), (40, Permanent)];
    let mut world = World::with(&files);
    let (right, wrong) = (world.numbers, Numbers { records: 7, ..world.numbers });
    for mark in WRONG {
        assert_eq!(world.refused_keep(right, 30, mark), 18);
        assert_eq!([0, 20].map(|time| world.refused_keep(right, time, mark)), [18; 2], "18 before 14");
        assert_eq!([61, u64::MAX].map(|time| world.refused_keep(right, time, mark)), [12; 2], "12 before 18");
        assert_eq!([30, 61].map(|time| world.refused_keep(wrong, time, mark)), [1; 2], "1 before both");
    }
    for mark in MARKS {
        assert_eq!(world.call(|store| store.keep(61, mark)), Err(Refusal::TimeAfterLast));
        assert_eq!(world.call(|store| store.keep(0, mark)), Err(Refusal::NotToKeep));
        assert_eq!(world.call(|store| store.keep(20, mark)), Err(Refusal::NotToKeep));
    }
    world.holds(&files);

    let full = [(5, Sunday), (10, Sunday), (15, Permanent), (20, Friday), (40, Permanent), (60, Friday)];
    let mut world = World::with(&full);
    let right = world.numbers;
    assert_eq!([0, 30].map(|time| world.refused_keep(right, time, 9)), [18; 2], "18 before 15");
    assert_eq!(world.refused_keep(right, 61, 9), 12);
    for mark in MARKS {
        assert_eq!(world.call(|store| store.keep(30, mark)), Err(Refusal::CatalogueFull));
        assert_eq!(world.call(|store| store.keep(40, mark)), Err(Refusal::NotToKeep), "14 before 15");
    }
    world.holds(&full);
}

/// From these files the mark leaves those; asked again, it takes none and changes nothing.
fn leaves(files: &[File], mark: Mark, left: &[File]) {
    let mut world = World::with(files);
    for gone in [files.len() - left.len(), 0] {
        assert_eq!(world.call(|store| store.drop_marked(mark)), Ok(gone as u32), "{mark:?} of {files:?}");
        world.holds(left);
    }
}

#[test]
fn drop_by_mark() {
    let mixed = [(10, Friday), (20, Sunday), (30, Permanent), (40, Friday), (50, Sunday), (60, Friday)];
    leaves(&mixed, Friday, &[(20, Sunday), (30, Permanent), (50, Sunday)]);
    leaves(&mixed, Sunday, &[(10, Friday), (30, Permanent), (40, Friday), (60, Friday)]);
    // two side by side
    let pairs = [(10, Permanent), (20, Friday), (30, Friday), (40, Sunday), (50, Sunday), (60, Permanent)];
    leaves(&pairs, Friday, &[(10, Permanent), (40, Sunday), (50, Sunday), (60, Permanent)]);
    leaves(&pairs, Sunday, &[(10, Permanent), (20, Friday), (30, Friday), (60, Permanent)]);
    // the first alone, the last alone, all, none
    leaves(&[(10, Friday), (20, Sunday), (30, Permanent)], Friday, &[(20, Sunday), (30, Permanent)]);
    leaves(&[(10, Permanent), (20, Friday), (30, Sunday)], Sunday, &[(10, Permanent), (20, Friday)]);
    leaves(&[(10, Friday), (20, Friday), (60, Friday)], Friday, &[]);
    leaves(&[(10, Friday), (20, Friday)], Sunday, &[(10, Friday), (20, Friday)]);
    leaves(&[(10, Permanent), (40, Permanent)], Friday, &[(10, Permanent), (40, Permanent)]);
    leaves(&[], Sunday, &[]);
}

/// Every choice of marks for up to five files.
#[test]
fn drop_of_every_choice() {
    for count in 0..=5u32 {
        for choice in 0..3usize.pow(count) {
            let mark_of = |i: u32| MARKS[choice / 3usize.pow(i) % 3];
            let files: Vec<File> = (0..count).map(|i| (10 + 10 * u64::from(i), mark_of(i))).collect();
            for mark in [Friday, Sunday] {
                let left: Vec<File> = files.iter().copied().filter(|file| file.1 != mark).collect();
                leaves(&files, mark, &left);
            }
        }
    }
}

#[test]
fn questions_of_a_drop_by_mark() {
    let files = [(10, Sunday), (20, Friday), (40, Permanent)];
    let mut world = World::with(&files);
    assert_eq!(world.call(|store| store.drop_marked(Permanent)), Err(Refusal::WrongMark));
    world.holds(&files);
    let (right, wrong) = (world.numbers, Numbers { records: 7, ..world.numbers });
    for mark in WRONG.into_iter().chain([0]) {
        assert_eq!(world.refused_drop(right, mark), 18);
        assert_eq!(world.refused_drop(wrong, mark), 1, "1 before 18");
    }
    assert_eq!([5, 7].map(|mark| world.refused_drop(wrong, mark)), [1; 2]);
    let crowded = Numbers { files: FILES as u32 + 1, ..right };
    assert_eq!(world.refused_drop(crowded, 5), 1);
    world.holds(&files);
    // no store
    let nothing = Lent { log: &mut [], index: &mut [], table: &mut [], entries: &mut [], areas: &mut [] };
    let mut none = Store::resume(Numbers::default(), nothing);
    assert_eq!(MARKS.map(|mark| none.drop_marked(mark)), [Err(Refusal::Header); 3]);
    assert_eq!(MARKS.map(|mark| none.keep(61, mark)), [Err(Refusal::Header); 3]);
}

/// Neither entries nor areas lent, or no request yet: nothing to delete.
#[test]
fn drop_by_mark_without_files() {
    let mut memory = World::new().memory;
    let mut store = Store::open(Lent { entries: &mut [], areas: &mut [], ..memory.lend() }).unwrap();
    assert_eq!(store.drop_marked(Friday), Ok(0));
    assert_eq!(store.keep(20, Friday), Err(Refusal::CatalogueFull));
    let mut memory = Memory::new();
    let mut store = Store::fresh(SETTINGS, memory.lend()).unwrap();
    assert_eq!((store.drop_marked(Sunday), store.drop_marked(Permanent)), (Ok(0), Err(Refusal::WrongMark)));
    assert!(store.audit());
}

#[test]
fn drop_by_time_whatever_the_mark() {
    let mut world = World::with(&[(10, Sunday), (20, Friday), (30, Permanent), (40, Friday)]);
    world.call(|store| store.drop_file(20)).unwrap();
    world.holds(&[(10, Sunday), (30, Permanent), (40, Friday)]);
    assert_eq!(world.call(|store| store.drop_file(20)), Err(Refusal::NotKept));
    world.call(|store| store.drop_file(10)).unwrap();
    world.holds(&[(30, Permanent), (40, Friday)]);
    world.call(|store| store.drop_file(30)).unwrap();
    world.holds(&[(40, Friday)]);
    // kept again, with another mark
    world.call(|store| store.keep(20, Permanent)).unwrap();
    assert_eq!(world.call(|store| store.drop_marked(Friday)), Ok(1));
    world.holds(&[(20, Permanent)]);
}

/// Positions, rows, units, differences and net changes of times to 62.
type Answers = Vec<((u32, u32), Vec<Row>, u64, Vec<(i64, Vec<Step>)>)>;

fn answers(store: &Store) -> Answers {
    let (mut out, mut work) = ([0; 96], [0; 64]);
    let mut answer = |a| {
        let position = store.position(a).unwrap();
        let rows = store.table(a, &mut out).unwrap().rows().collect();
        let to = |b| {
            let steps = store.net_change(a, b, &mut out, &mut work).unwrap().steps().collect();
            (store.units_between(a, b).unwrap(), steps)
        };
        let changes = (0..63).map(to).collect();
        ((position.page, position.requests), rows, store.units(a).unwrap(), changes)
    };
    (0..63).map(&mut answer).collect()
}

#[test]
fn no_answer_differs() {
    let mixed = [(10, Friday), (20, Sunday), (30, Permanent), (40, Friday), (50, Sunday), (60, Friday)];
    let wanted = World::new().call(|store| answers(store));
    let mut world = World::with(&mixed);
    assert!(world.call(|store| answers(store)) == wanted, "with six files");
    assert_eq!(world.call(|store| store.drop_marked(Friday)), Ok(3));
    assert!(world.call(|store| answers(store)) == wanted, "without Friday's");
    assert_eq!(world.call(|store| store.drop_marked(Sunday)), Ok(2));
    assert!(world.call(|store| answers(store)) == wanted, "without Sunday's");
}

/// Where the table of a time is worked out from, which table and view say alike.
fn outset(world: &mut World, time: u64) -> (Place, Side, u32) {
    world.call(|store| {
        let view = store.view(time).unwrap();
        let mut out = [0; 32];
        let table = store.table(time, &mut out).unwrap();
        assert_eq!((table.side, table.requests_between), (view.side, view.requests_between));
        (view.place, view.side, view.requests_between)
    })
}

/// Requests at or before 10, 20, 30, 40, 45 and 60: 1, 2, 4, 5, 5 and 8.
#[test]
fn outsets_ignore_marks() {
    for mark in MARKS {
        // a tie of three
        assert_eq!(outset(&mut World::with(&[(20, mark)]), 45), (Place::File(0), Side::Earlier, 3));
    }
    let mut world = World::with(&[(20, Friday)]);
    assert_eq!(world.call(|store| store.drop_marked(Friday)), Ok(1));
    assert_eq!(outset(&mut world, 45), (Place::Current, Side::Later, 3), "5 and 3");
    let mut world = World::with(&[(10, Permanent), (40, Sunday)]);
    assert_eq!(outset(&mut world, 30), (Place::File(1), Side::Later, 1), "3 and 1");
    assert_eq!(world.call(|store| store.drop_marked(Sunday)), Ok(1));
    assert_eq!(outset(&mut world, 30), (Place::File(0), Side::Earlier, 3), "3 and 4");
}

#[test]
fn audit_of_marks() {
    let files = [(10, Sunday), (20, Friday), (40, Permanent)];
    let mut world = World::with(&files);
    for (i, (_, mark)) in files.into_iter().enumerate() {
        for wrong in WRONG {
            world.memory.entries[i].mark = wrong;
            assert!(!world.audit(), "{wrong} in entry {i}");
            assert_eq!(world.memory.entries[i].marked(), None);
        }
        for other in MARKS {
            world.memory.entries[i].mark = other.number();
            assert!(world.audit(), "a keep could have left {other:?} in entry {i}");
        }
        world.memory.entries[i].mark = mark.number();
    }
    for i in files.len()..FILES {
        for stray in [5, 7].into_iter().chain(WRONG) {
            world.memory.entries[i].mark = stray;
            assert!(!world.audit(), "{stray} in entry {i}, which no file has");
        }
        world.memory.entries[i].mark = 0;
    }
    world.memory.entries[FILES].mark = 5;
    assert!(world.audit(), "past the capacity");
    world.memory.entries[FILES] = NO_ENTRY;
    world.holds(&files);
}

/// A fresh store and an opening make every mark zero, up to the capacity.
#[test]
fn starts_without_marks() {
    for open in [false, true] {
        let mut world = World::with(&[(10, Sunday), (20, Friday)]);
        world.memory.entries.fill(NO_ENTRY);
        assert!(!world.audit());
        let started = world.call(|store| if open { store.reopen() } else { store.start(SETTINGS) });
        assert_eq!(started, Ok(()));
        assert_eq!(world.memory.entries[..FILES], [Entry::default(); FILES]);
        assert_eq!(world.memory.entries[FILES..], [NO_ENTRY; 2]);
        assert!(world.audit() && world.call(|store| store.drop_marked(Friday)) == Ok(0));
    }
}

/// Whatever entries and areas hold, the calls on count files end and touch nothing else; a refusal changes nothing.
#[test]
fn entries_of_a_stranger() {
    type Call = fn(&mut Store) -> Option<Refusal>;
    let calls: [Call; 4] = [
        |store| store.keep(30, Friday).err(),
        |store| store.drop_file(20).err(),
        |store| store.drop_marked(Friday).err(),
        |store| store.drop_marked(Sunday).err(),
    ];
    for call in calls {
        for number in [0, 5, 7, 20, 0xEE, u32::MAX] {
            for files in 0..=FILES {
                let mut world = World::with(&[(10, Friday), (20, Sunday), (40, Friday)]);
                world.numbers.files = files as u32;
                world.memory.entries[..FILES].fill(Entry { time: number.into(), rows: number, mark: number });
                let before = world.memory.clone();
                let refusal = world.call(call);
                assert!(refusal.is_none() || world.memory == before, "{refusal:?}");
                let World { memory, start, .. } = world;
                assert!(
                    memory.log == start.log && memory.index == start.index && memory.table == start.table
                );
                assert_eq!(memory.entries[FILES..], start.entries[FILES..]);
                assert_eq!(memory.areas[32 * FILES..], start.areas[32 * FILES..]);
            }
        }
    }
}
