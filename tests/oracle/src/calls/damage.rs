//! What a stranger does to a store.

use super::almost::{other_mark, wrong_file, wrong_log};
use super::any_mark;
use crate::layout::{Header, HEADER_BYTES};
use crate::limits::MOST_RECORDS;
use crate::outset::Entry;
use crate::random::Random;
use crate::store::{Memory, Numbers, Store};

/// Does one thing to a store, mostly where question 1 does not look.
pub fn damage(store: &mut Store, seed: u64) {
    let mut random = Random::new(seed);
    match random.from(0, 11) {
        0..=1 => wrong_log(&mut random, store),
        2..=3 => wrong_file(&mut random, store),
        4..=5 => other_mark(&mut random, store),
        _ => write_anywhere(&mut random, store),
    }
}

/// Writes something somewhere in memory or numbers.
fn write_anywhere(random: &mut Random, Store { numbers, memory }: &mut Store) {
    let any_byte = |random: &mut Random| random.next() as u8;
    match random.from(0, 21) {
        0..=2 if memory.log.len() > HEADER_BYTES => write(random, &mut memory.log[HEADER_BYTES..], any_byte),
        0..=3 => write(random, &mut memory.log, any_byte),
        4..=5 => write(random, &mut memory.index, Random::next),
        6..=7 => write(random, &mut memory.table, any_byte),
        8..=9 => write(random, &mut memory.catalogue, |random| Entry {
            time: random.from(0, 40),
            rows: random.pick(&[0, 1, 7, 1025, u32::MAX]),
            mark: any_mark(random),
        }),
        10..=12 => write(random, &mut memory.areas, any_byte),
        13 => numbers.live = random.from(0, 1 + numbers.row_limit as u64) as u32,
        14..=15 => numbers.files = random.pick(&[0, 1, 2, 16, 17, numbers.files.wrapping_add(1)]),
        // a word that another one has, as a separator has a key's
        21 if !memory.index.is_empty() => {
            let (from, to) = (random.place(memory.index.len()), random.place(memory.index.len()));
            memory.index[to] = memory.index[from];
        }
        16 => damage_numbers(random, numbers),
        17..=18 => {
            damage_numbers(random, numbers);
            write_header(numbers, &mut memory.log);
        }
        _ => lend_otherwise(random, memory),
    }
}

/// One of the numbers that the header has too.
fn damage_numbers(random: &mut Random, numbers: &mut Numbers) {
    let Numbers { order, page_size, row_limit, records, last, .. } = numbers;
    match random.from(0, 4) {
        0 => *order = random.pick(&[0, 1, 2, 3, 64, 65]),
        1 => *page_size = random.pick(&[0, 1, 2, 3, 64, 65]),
        2 => {
            *row_limit = random.pick(&[0, 1, *row_limit / 2, row_limit.wrapping_add(1), 1024, 1025, u32::MAX])
        }
        3 => *records = random.pick(&[0, *records / 2, records.wrapping_sub(1), MOST_RECORDS + 1, u32::MAX]),
        _ => *last = random.pick(&[0, *last / 2, last.wrapping_sub(1), last.wrapping_add(1), u64::MAX]),
    }
}

fn write_header(numbers: &Numbers, log: &mut [u8]) {
    let Numbers { order, page_size, row_limit, records, last, .. } = *numbers;
    if log.len() >= HEADER_BYTES {
        let header = Header::new(order, page_size, row_limit, records, last);
        log[..HEADER_BYTES].copy_from_slice(&header.bytes());
    }
}

/// One of the regions cut short, or with something behind it.
fn lend_otherwise(random: &mut Random, memory: &mut Memory) {
    let shorter = |random: &mut Random, length: usize| match random.from(0, 3) {
        0 => length / 2,
        1 => length + 1 + random.place(40),
        _ => length.saturating_sub(1 + random.place(24)),
    };
    match random.from(0, 4) {
        0 => memory.log.resize(shorter(random, memory.log.len()), 0x3C),
        1 => memory.index.resize(shorter(random, memory.index.len()), 0x3C),
        2 => memory.table.resize(shorter(random, memory.table.len()), 0x3C),
        3 => {
            let entry = Entry { time: 3, rows: 1, mark: 5 };
            memory.catalogue.resize(shorter(random, memory.catalogue.len()), entry)
        }
        _ => memory.areas.resize(shorter(random, memory.areas.len()), 0x3C),
    }
}

/// Writes at one place of the list, if it has any.
fn write<T>(random: &mut Random, list: &mut [T], value: impl Fn(&mut Random) -> T) {
    if !list.is_empty() {
        list[random.place(list.len())] = value(random);
    }
}
