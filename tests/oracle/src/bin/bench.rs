//! Times the proved store, through its crate's handle, beside a plain Rust one, in two settings: a large store, and that of a
//! handheld counter. With 16 count files and with none, buffers warm, the best of several runs. Both write the same bytes and
//! answer the same, which is checked.

use oracle::limits::{MOST_FILES, MOST_RECORDS};
use oracle::mark::{FRIDAY, PERMANENT};
use oracle::plain::Plain;
use oracle::proved::Owned;
use oracle::random::Random;
use oracle::requests::{colliding, requests, Request};
use oracle::table::table_length;
use std::hint::black_box;
use std::time::Instant;
use yokefennel::{Mark, Settings};

const RUNS: usize = 15;
const POSITIONS: usize = 100_000;
const TABLES: usize = 20;

/// Settings, and how many records the log has.
const BENCHES: [(&str, Settings, u32); 2] = [
    ("large", Settings { order: 64, page: 64, limit: 1_024 }, MOST_RECORDS),
    ("handheld", Settings { order: 8, page: 16, limit: 100 }, 1_000),
];

/// The times of the fastest runs of both, in nanoseconds.
#[derive(Clone, Copy)]
struct Fastest {
    proved: f64,
    plain: f64,
}

impl Fastest {
    fn new() -> Fastest {
        Fastest { proved: f64::INFINITY, plain: f64::INFINITY }
    }

    /// One run more of both. They run in turn, so that both meet the same noise.
    fn run<A, B>(&mut self, proved: impl FnOnce() -> A, plain: impl FnOnce() -> B) {
        let start = Instant::now();
        black_box(proved());
        let between = Instant::now();
        black_box(plain());
        self.plain = self.plain.min(between.elapsed().as_nanos() as f64);
        self.proved = self.proved.min((between - start).as_nanos() as f64);
    }

    /// One line of the report: the times of both for one call, in this many nanoseconds, and their ratio.
    fn line(&self, what: &str, unit: &str, by: f64) {
        let (proved, plain) = (self.proved / by, self.plain / by);
        println!("{what:<24} {proved:>9.2} {plain:>9.2} {unit}  {:.2}", proved / plain);
    }
}

fn best<A, B>(mut proved: impl FnMut() -> A, mut plain: impl FnMut() -> B) -> Fastest {
    let mut fastest = Fastest::new();
    for _ in 0..RUNS {
        fastest.run(&mut proved, &mut plain);
    }
    fastest
}

/// Both stores, and what they are made with.
struct Both {
    settings: Settings,
    records: u32,
    proved: Owned,
    plain: Plain,
}

fn main() {
    for (name, settings, records) in BENCHES {
        let Settings { order, page, limit } = settings;
        println!("{name}: {records} records, {limit} rows, {page} records a page, order {order}");
        println!("{:<24} {:>9} {:>9}", "", "proved", "plain");
        Both {
            settings,
            records,
            proved: Owned::fresh(settings, records, MOST_FILES as u32),
            plain: Plain::fresh(order, page, limit, records, MOST_FILES),
        }
        .time();
    }
}

impl Both {
    fn time(&mut self) {
        let random = &mut Random::new(2055);
        let requests = requests(random, self.settings.limit, self.records, None);
        self.append(&requests).line("append, a record", "ns", self.records as f64);
        self.opening();
        let last = self.plain.numbers.last;
        let asked: Vec<u64> = (0..POSITIONS).map(|_| random.from(0, last)).collect();
        self.position(&asked);
        self.queries(&asked[..TABLES], "no file");
        self.keep_and_drop(random);
        self.drop_marked();
        self.queries(&asked[..TABLES], "16 files");
        self.colliding_tables(random);
    }

    fn append(&mut self, requests: &[Request]) -> Fastest {
        let Both { settings, proved, plain, .. } = self;
        let Settings { order, page, limit } = *settings;
        let append = best(
            || {
                proved.calls(|store| store.start(*settings)).unwrap();
                proved.append_all(requests)
            },
            || {
                plain.start(order, page, limit);
                plain.append_all(requests)
            },
        );
        proved.assert_same(plain);
        append
    }

    fn opening(&mut self) {
        let Both { proved, plain, .. } = self;
        let opening = best(|| proved.calls(|store| store.reopen()).unwrap(), || plain.open().unwrap());
        proved.assert_same(plain);
        opening.line("opening, the whole log", "µs", 1e3);
    }

    fn position(&mut self, asked: &[u64]) {
        let Both { proved, plain, .. } = self;
        proved.calls(|store| {
            let of_proved = |t| {
                let position = store.position(t).unwrap();
                (position.page, position.requests)
            };
            let of_plain = |t| {
                let position = plain.position(t).unwrap();
                (position.page, position.requests)
            };
            assert!(asked.iter().all(|&t| of_proved(t) == of_plain(t)));
            let sum = |(page, requests): (u32, u32)| (page + requests) as u64;
            let position = best(
                || asked.iter().map(|&t| sum(of_proved(t))).sum::<u64>(),
                || asked.iter().map(|&t| sum(of_plain(t))).sum::<u64>(),
            );
            position.line("position", "ns", asked.len() as f64);
        })
    }

    /// Table, units, net change and audit, with as many count files as are kept. Units stand beside the tables of the same
    /// times: they must not cost more.
    fn queries(&mut self, asked: &[u64], files: &str) {
        self.tables(asked, &format!("table, {files}"));
        let pairs: Vec<[u64; 2]> = asked.windows(2).map(|pair| [pair[0], pair[1]]).collect();
        self.units(asked, &pairs, files);
        self.net_changes(&pairs, files);
        let Both { proved, plain, .. } = self;
        proved.calls(|store| {
            assert!(store.audit() && plain.audit());
            best(|| store.audit(), || plain.audit()).line(&format!("audit, {files}"), "µs", 1e3);
        })
    }

    fn tables(&mut self, asked: &[u64], name: &str) {
        let Both { settings, proved, plain, .. } = self;
        let [left, right] = &mut [0, 0].map(|fill| vec![fill; table_length(settings.limit)]);
        proved.calls(|store| {
            for &t in asked {
                assert_eq!(store.table(t, left).unwrap().rows().len(), plain.table(t, right));
                assert!(left == right);
            }
            let table = best(
                || asked.iter().map(|&t| store.table(t, left).unwrap().rows().len()).sum::<usize>(),
                || asked.iter().map(|&t| plain.table(t, right)).sum::<usize>(),
            );
            table.line(name, "µs", 1e3 * asked.len() as f64);
        })
    }

    /// Units at these times, and between these pairs of times.
    fn units(&mut self, asked: &[u64], pairs: &[[u64; 2]], files: &str) {
        let Both { proved, plain, .. } = self;
        proved.calls(|store| {
            assert!(asked.iter().all(|&t| store.units(t).unwrap() == plain.units(t)));
            let units = best(
                || asked.iter().map(|&t| store.units(t).unwrap()).sum::<u64>(),
                || asked.iter().map(|&t| plain.units(t)).sum::<u64>(),
            );
            units.line(&format!("units, {files}"), "µs", 1e3 * asked.len() as f64);

            let of_proved = |[a, b]: [u64; 2]| store.units_between(a, b).unwrap();
            let of_plain = |[a, b]: [u64; 2]| plain.units_between(a, b);
            assert!(pairs.iter().all(|&pair| of_proved(pair) == of_plain(pair)));
            let between = best(
                || pairs.iter().map(|&pair| of_proved(pair)).sum::<i64>(),
                || pairs.iter().map(|&pair| of_plain(pair)).sum::<i64>(),
            );
            between.line(&format!("units between, {files}"), "µs", 1e3 * pairs.len() as f64);
        })
    }

    fn net_changes(&mut self, pairs: &[[u64; 2]], files: &str) {
        let Both { settings, proved, plain, .. } = self;
        let area = table_length(settings.limit);
        let [left, right] = &mut [0, 0].map(|fill| vec![fill; 3 * area]);
        let [work, other_work] = &mut [0, 0].map(|fill| vec![fill; 2 * area]);
        proved.calls(|store| {
            for &[a, b] in pairs {
                let entries = store.net_change(a, b, left, work).unwrap().steps().len();
                assert_eq!(entries, plain.net_change(a, b, right, other_work));
                assert!(left == right && work == other_work);
            }
            let net_change = best(
                || {
                    let entries =
                        |&[a, b]: &[u64; 2]| store.net_change(a, b, left, work).unwrap().steps().len();
                    pairs.iter().map(entries).sum::<usize>()
                },
                || pairs.iter().map(|&[a, b]| plain.net_change(a, b, right, other_work)).sum::<usize>(),
            );
            net_change.line(&format!("net change, {files}"), "µs", 1e3 * pairs.len() as f64);
        })
    }

    /// Keeps 16 files in any order, and drops them in another; they are kept again at the end. By their times every second
    /// one is to go on Friday.
    fn keep_and_drop(&mut self, random: &mut Random) {
        let last = self.plain.numbers.last;
        let time = |k: usize| last * k as u64 / (MOST_FILES as u64 + 1);
        let mut files: Vec<(u64, u32)> =
            (1..=MOST_FILES).map(|k| (time(k), if k % 2 == 0 { PERMANENT } else { FRIDAY })).collect();
        random.shuffle(&mut files);
        let mut dropped = files.clone();
        random.shuffle(&mut dropped);
        let (mut keep, mut drop) = (Fastest::new(), Fastest::new());
        for _ in 0..RUNS {
            self.keep_all(&files, &mut keep);
            let Both { proved, plain, .. } = self;
            drop.run(
                || proved.calls(|store| dropped.iter().for_each(|&(t, _)| store.drop_file(t).unwrap())),
                || dropped.iter().for_each(|&(t, _)| plain.drop_file(t).unwrap()),
            );
            proved.assert_same(plain);
        }
        keep.line("keep, of 16 files", "µs", 1e3 * MOST_FILES as f64);
        drop.line("drop, of 16 files", "µs", 1e3 * MOST_FILES as f64);
        self.keep_all(&files, &mut keep);
    }

    /// Deletes the files that are to go on Friday, every second one; they are kept again each time.
    fn drop_marked(&mut self) {
        let kept = self.plain.entries.iter().map(|entry| (entry.time, entry.mark));
        let marked: Vec<(u64, u32)> = kept.filter(|(_, mark)| *mark == FRIDAY).collect();
        let gone = marked.len() as u32;
        let mut deletion = Fastest::new();
        for _ in 0..RUNS {
            let Both { proved, plain, .. } = self;
            deletion.run(
                || proved.calls(|store| assert_eq!(store.drop_marked(Mark::Friday), Ok(gone))),
                || assert_eq!(plain.drop_marked(FRIDAY), Ok(gone)),
            );
            proved.assert_same(plain);
            self.keep_all(&marked, &mut Fastest::new());
        }
        deletion.line(&format!("drop marked, {gone} of {MOST_FILES}"), "µs", 1e3);
    }

    fn keep_all(&mut self, files: &[(u64, u32)], keep: &mut Fastest) {
        let Both { proved, plain, .. } = self;
        let marked = |mark| Mark::try_from(mark).unwrap();
        keep.run(
            || proved.calls(|store| files.iter().for_each(|&(t, mark)| store.keep(t, marked(mark)).unwrap())),
            || files.iter().for_each(|&(t, mark)| plain.keep(t, mark).unwrap()),
        );
        proved.assert_same(plain);
    }

    /// Tables of a log whose articles share one slot of the walk's hints.
    fn colliding_tables(&mut self, random: &mut Random) {
        let requests = requests(random, self.settings.limit, self.records, Some(&colliding(2_000)));
        self.append(&requests);
        let last = self.plain.numbers.last;
        let asked: Vec<u64> = (0..TABLES).map(|_| random.from(0, last)).collect();
        self.tables(&asked, "table, colliding");
    }
}
