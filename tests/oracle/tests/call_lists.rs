//! Random lists of calls from a fresh or an opened store: what the mission's demands say after each
//! of them, and that no call on a stranger's memory panics or writes where it must not.

mod common;

use common::{candidates, records_between, units::on_hand, STRANGE};
use oracle::generate::legal_log;
use oracle::layout::Row;
use oracle::log::{log_length, page_times};
use oracle::net_change::{leads, net_change, output_length};
use oracle::outset::{held, Held, Place, Side};
use oracle::random::Random;
use oracle::store::{Lengths, Memory, Numbers, Refusal, Store};
use oracle::table::{table_bytes, table_length, timeslice};
use oracle::tree::{word_count, words};

/// A time near the requests, at both ends, or past the last one.
fn time(random: &mut Random, store: &Store) -> u64 {
    let last = store.numbers.last;
    match random.from(0, 5) {
        0 => random.pick(&[0, 1, last, last.saturating_add(1), u64::MAX]),
        1 => last.saturating_add(random.from(1, 9)),
        _ => random.from(0, last.min(u64::MAX - 1)),
    }
}

/// One call with random arguments; the answer's refusal, if any.
fn call(random: &mut Random, store: &mut Store) -> Result<(), Refusal> {
    let (t, other) = (time(random, store), time(random, store));
    let next = store.numbers.last.saturating_add(random.from(1, 5));
    let (article, count) = (random.from(0, 6) as u32, random.from(0, 3) as u32);
    // sometimes one byte too short
    let row_limit = store.numbers.row_limit.clamp(1, 1024);
    let short = random.percent(10) as usize;
    let mut output = vec![STRANGE; output_length(row_limit) - short];
    let mut workspace = vec![STRANGE; 2 * table_length(row_limit)];
    let mark = random.pick(&[0, 5, 5, 7, 7, 6]);
    match random.from(0, 14) {
        0..=2 => store.insert(if random.percent(95) { next } else { t }, article, count),
        3 => store.delete(next, article),
        4 => store.update(next, article, count),
        5 => store.position(t).map(|_| ()),
        6 => store.table(t, &mut output).map(|_| ()),
        7 => store.view(t).map(|view| drop(store.view_bytes(&view).to_vec())),
        8 => store.net_change(t, other, &mut output, &mut workspace).map(|_| ()),
        9 => store.keep(t, mark),
        10 => {
            let kept = store.memory.catalogue.first().map_or(t, |entry| entry.time);
            store.drop_file(if random.percent(50) { kept } else { t })
        }
        11 => store.units(t).map(|_| ()),
        12 => store.units_between(t, other).map(|_| ()),
        13 => store.drop_marked(mark).map(|_| ()),
        _ => {
            store.audit();
            Ok(())
        }
    }
}

fn small_store(random: &mut Random) -> Store {
    let (order, page_size) = (random.from(2, 5) as u16, random.from(2, 4) as u16);
    let row_limit = random.from(1, 6) as u32;
    let lengths = Lengths {
        log: log_length(random.from(0, 60) as u32) + random.from(0, 23) as usize,
        index: random.from(0, 80) as usize,
        table: table_length(row_limit) + random.from(0, 9) as usize,
        catalogue: random.from(0, 6) as usize,
        areas: random.from(0, 6 * 8 * row_limit as u64) as usize,
    };
    let mut store = Store::over(Memory::filled(lengths, STRANGE));
    store.fresh(order, page_size, row_limit).unwrap();
    store
}

/// Demands 2 and 3 for this state.
fn check(random: &mut Random, store: &Store) {
    assert!(store.audit());
    let records = store.records();
    let Numbers { order, page_size, row_limit, .. } = store.numbers;
    let keys = page_times(page_size, &records);
    let words = words(order, &keys);
    assert_eq!(store.memory.index[..words.len()], words);

    // opening the written log over other memory gives the same index and current table
    let mut again = Store::over(store.memory.clone());
    again.memory.index.fill(3);
    again.memory.table.fill(3);
    again.open().unwrap();
    assert_eq!(again.memory.index[..words.len()], words);
    assert_eq!(again.memory.table[..table_length(row_limit)], store.memory.table[..table_length(row_limit)]);
    assert_eq!(Numbers { files: 0, ..store.numbers }, again.numbers);

    let (a, b) = (time(random, store), time(random, store));
    let (rows_a, rows_b) = (table_at(store, a), table_at(store, b));
    assert_eq!(table_at(&again, a), rows_a);
    let list = net_change(&rows_a, &rows_b);
    assert!(leads(&list, &rows_a, &rows_b));
    assert_eq!(list.is_empty(), rows_a == rows_b);

    let (units_a, units_b) = (on_hand(&records, a), on_hand(&records, b));
    assert_eq!(store.units(a).unwrap() as i128, units_a);
    assert_eq!(store.units_between(a, b).unwrap() as i128, units_b - units_a);
}

/// The table of t, with its outset checked: of the two candidates the one with fewest requests between,
/// the earlier one on a tie, and no held one has fewer.
fn table_at(store: &Store, t: u64) -> Vec<Row> {
    let Numbers { row_limit, last, .. } = store.numbers;
    let mut output = vec![STRANGE; table_length(row_limit)];
    let answer = store.table(t, &mut output).unwrap();
    let rows = timeslice(&store.records(), t);
    assert_eq!(answer.rows as usize, rows.len());
    assert_eq!(output, table_bytes(row_limit, &rows));

    let records = store.records();
    let between = |held: &Held| records_between(&records, held.time, t);
    let [earlier, later] = candidates(store, t);
    let (side, used) =
        if between(&later) < between(&earlier) { (Side::Later, later) } else { (Side::Earlier, earlier) };
    assert_eq!((answer.side, answer.requests_between), (side, between(&used)));
    assert!(held(store.kept(), last).iter().all(|held| between(held) >= answer.requests_between));
    let view = store.view(t).unwrap();
    assert_eq!((view.place, view.side, view.requests_between), (used.place, side, between(&used)));
    let outset_rows = timeslice(&store.records(), used.time);
    let expected = if used.place == Place::Empty { vec![] } else { outset_rows };
    assert_eq!(store.view_bytes(&view), expected.iter().flat_map(Row::bytes).collect::<Vec<u8>>());
    rows
}

#[test]
fn lists_from_a_fresh_store() {
    let mut refusals = [0; 20];
    for case in 0..1500 {
        let mut random = Random::for_case(1, case);
        let mut store = small_store(&mut random);
        for _ in 0..60 {
            let before = store.clone();
            if let Err(refusal) = call(&mut random, &mut store) {
                assert_eq!(store, before);
                refusals[refusal.question as usize] += 1;
            }
            check(&mut random, &store);
        }
    }
    // every question of these calls but 1 was answered no somewhere
    for question in [6, 7, 8, 9, 10, 11, 12, 13, 14, 15, 16, 18] {
        assert!(refusals[question] > 0, "question {question}");
    }
    assert_eq!(refusals[1], 0);
}

#[test]
fn lists_from_an_opened_store() {
    for case in 0..150 {
        let mut random = Random::for_case(2, case);
        let log = legal_log(&mut random);
        if log.records.len() > 200 {
            continue;
        }
        let n = log.header.records + 8;
        let lengths = Lengths {
            log: log.bytes().len().max(log_length(n)),
            index: word_count(log.header.order, log.header.page_size, n),
            table: 8 * 1024,
            catalogue: 5,
            areas: 5 * table_length(log.header.row_limit),
        };
        let mut memory = Memory::filled(lengths, STRANGE);
        memory.log[..log.bytes().len()].copy_from_slice(&log.bytes());
        let mut store = Store::over(memory);
        store.open().unwrap();
        for _ in 0..40 {
            let before = store.clone();
            if call(&mut random, &mut store).is_err() {
                assert_eq!(store, before);
            }
        }
        check(&mut random, &store);
    }
}

/// One log, whichever count files were kept or deleted: the same tables, for every time.
#[test]
fn count_files_do_not_change_tables() {
    for case in 0..200 {
        let mut random = Random::for_case(3, case);
        let mut store = small_store(&mut random);
        for _ in 0..80 {
            let _ = call(&mut random, &mut store);
        }
        let mut other = store.clone();
        for _ in 0..20 {
            let t = random.from(0, store.numbers.last);
            let mark = random.pick(&[0, 5, 7]);
            let _ = match random.from(0, 9) {
                0..=5 => other.keep(t, mark),
                6..=8 => other.drop_file(t),
                _ => other.drop_marked(mark).map(|_| ()),
            };
        }
        for t in [time(&mut random, &store), time(&mut random, &store), u64::MAX] {
            assert_eq!(table_at(&store, t), table_at(&other, t));
        }
    }
}

/// Memory and numbers damaged anywhere: calls end within it, refused ones leave it, and accepted
/// ones write only what the call names.
#[test]
fn a_strangers_memory() {
    let mut denied = 0;
    for case in 0..6000 {
        let mut random = Random::for_case(4, case);
        let mut store = small_store(&mut random);
        for _ in 0..30 {
            let _ = call(&mut random, &mut store);
        }
        for _ in 0..random.from(1, 6) {
            damage(&mut random, &mut store);
        }
        if store.audit() {
            continue;
        }
        denied += 1;
        for _ in 0..12 {
            let before = store.clone();
            let answer = call(&mut random, &mut store);
            if answer.is_err() {
                assert_eq!(store, before);
            }
            // queries and the audit change nothing; numbers that question 1 denies are not looked
            // at further
            if store != before {
                named_bytes_only(&before, &store);
            }
        }
        let _ = store.open();
    }
    assert!(denied > 4000);
}

/// Damage that question 1 does not see, for the most part.
fn damage(random: &mut Random, store: &mut Store) {
    let Store { numbers, memory } = store;
    let byte = random.next() as u8;
    match random.from(0, 7) {
        0 if memory.log.len() > 24 => {
            let place = random.from(24, memory.log.len() as u64 - 1) as usize;
            memory.log[place] = byte;
        }
        1 if !memory.index.is_empty() => {
            let place = random.place(memory.index.len());
            memory.index[place] = random.next();
        }
        2 => {
            let place = random.place(memory.table.len());
            memory.table[place] = byte;
        }
        3 if !memory.catalogue.is_empty() => {
            let place = random.place(memory.catalogue.len());
            memory.catalogue[place].time = random.pick(&[0, 1, numbers.last, byte as u64, u64::MAX]);
        }
        4 if !memory.catalogue.is_empty() => {
            let place = random.place(memory.catalogue.len());
            memory.catalogue[place].rows = random.pick(&[0, 1, 7, u32::MAX]);
        }
        5 if !memory.catalogue.is_empty() => {
            let place = random.place(memory.catalogue.len());
            memory.catalogue[place].mark = random.pick(&[0, 5, 6, 7, u32::MAX]);
        }
        6 => numbers.live = random.from(0, 7) as u32,
        _ => numbers.files = random.from(0, 7) as u32,
    }
}

/// Log bytes past the records, words past the nodes, the table past 8 × R bytes, entries and areas
/// past the files: no call names them.
fn named_bytes_only(before: &Store, after: &Store) {
    let Numbers { order, page_size, row_limit, records, .. } = after.numbers;
    assert_eq!(
        before.memory.log[24..log_length(before.numbers.records)],
        after.memory.log[24..log_length(before.numbers.records)]
    );
    assert_eq!(before.memory.log[log_length(records)..], after.memory.log[log_length(records)..]);
    let words = word_count(order, page_size, records);
    assert_eq!(before.memory.index[words..], after.memory.index[words..]);
    let table = table_length(row_limit);
    assert_eq!(before.memory.table[table..], after.memory.table[table..]);
    let files = before.numbers.files.max(after.numbers.files) as usize;
    assert_eq!(before.memory.catalogue[files..], after.memory.catalogue[files..]);
    assert_eq!(before.memory.areas[files * table..], after.memory.areas[files * table..]);
}
