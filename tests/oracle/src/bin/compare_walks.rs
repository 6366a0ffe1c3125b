//! Compares the tables of long walks, forwards and backwards, and their units with those of the plain store: on articles of
//! any number, and on articles that share one slot of the walk's hints, which then lead nowhere.

use oracle::mark::MARKS;
use oracle::plain::Plain;
use oracle::proved::Owned;
use oracle::random::Random;
use oracle::requests::{colliding, requests};
use oracle::table::table_length;
use yokefennel::{Mark, Settings, Store};

const ORDER: u16 = 8;
const PAGE_SIZE: u16 = 16;
const RECORDS: u32 = 6_000;
const FILES: usize = 2;
const TIMES: usize = 60;

fn main() {
    let mut random = Random::new(2055);
    let mut tables = 0;
    for row_limit in [1, 5, 40, 300, 1_024] {
        let crowd = colliding(2_000);
        for pool in [None, Some(&crowd[..]), Some(&crowd[..crowd.len().min(row_limit as usize + 3)])] {
            tables += compare(&mut random, row_limit, pool);
        }
    }
    println!("{tables} tables of long walks and their units agree");
}

/// One log, its tables at random times with no count file and with some: how many were compared.
fn compare(random: &mut Random, row_limit: u32, pool: Option<&[u32]>) -> usize {
    let requests = requests(random, row_limit, RECORDS, pool);
    let settings = Settings { order: ORDER, page: PAGE_SIZE, limit: row_limit };
    let mut proved = Owned::fresh(settings, RECORDS, FILES as u32);
    let mut plain = Plain::fresh(ORDER, PAGE_SIZE, row_limit, RECORDS, FILES);
    proved.append_all(&requests);
    plain.append_all(&requests);
    let last = plain.numbers.last;
    for k in 0..=FILES as u64 {
        proved.calls(|store| compare_tables(random, store, &plain));
        if k < FILES as u64 {
            let t = last * (k + 1) / (FILES as u64 + 1);
            let mark = MARKS[k as usize % MARKS.len()];
            proved.calls(|store| store.keep(t, Mark::try_from(mark).unwrap())).unwrap();
            plain.keep(t, mark).unwrap();
        }
    }
    proved.assert_same(&plain);
    TIMES * (FILES + 1)
}

fn compare_tables(random: &mut Random, proved: &Store, plain: &Plain) {
    let (row_limit, last) = (plain.numbers.row_limit, plain.numbers.last);
    let [left, right] = &mut [1, 1].map(|fill| vec![fill; table_length(row_limit)]);
    for _ in 0..TIMES {
        let t = asked(random, last);
        let rows = proved.table(t, left).unwrap().rows().len();
        assert_eq!(rows, plain.table(t, right), "limit {row_limit}, time {t}");
        assert!(left == right, "limit {row_limit}, time {t}");
        assert_eq!(proved.units(t).unwrap(), plain.units(t), "limit {row_limit}, time {t}");
        let other = asked(random, last);
        let between = proved.units_between(t, other).unwrap();
        assert_eq!(between, plain.units_between(t, other), "limit {row_limit}, from {t} to {other}");
    }
}

/// A time up to the last request, or sometimes one after it.
fn asked(random: &mut Random, last: u64) -> u64 {
    if random.percent(10) {
        random.pick(&[last + 1, last + 1_000, u64::MAX])
    } else {
        random.from(0, last)
    }
}
