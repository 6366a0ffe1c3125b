//! Changes to one field of a record.

use crate::layout::{Record, DELETION, INSERTION};
use crate::random::Random;

pub type Change = fn(&mut Random, &mut Record);

/// After these a record is wrong whatever stands before it.
pub const WRONG_ALONE: [Change; 4] = [length, kind, id, no_time];

/// After these a record can be right, and a later one wrong for it.
pub const WRONG_AMONG_OTHERS: [Change; 4] = [turned, time, article, count];

pub fn length(random: &mut Random, record: &mut Record) {
    record.length = other_small(random, 24);
}

pub fn kind(random: &mut Random, record: &mut Record) {
    record.kind = random.pick(&[0, 1, 4, 0x102, u16::MAX]);
}

/// An insertion for a deletion or back.
pub fn turned(_: &mut Random, record: &mut Record) {
    record.kind = INSERTION + DELETION - record.kind;
}

pub fn id(random: &mut Random, record: &mut Record) {
    record.id = other(random, record.id);
}

pub fn time(random: &mut Random, record: &mut Record) {
    record.time = random.next();
}

pub fn no_time(_: &mut Random, record: &mut Record) {
    record.time = 0;
}

pub fn article(random: &mut Random, record: &mut Record) {
    record.article = other(random, record.article);
}

pub fn count(random: &mut Random, record: &mut Record) {
    record.count = other(random, record.count);
}

fn other(random: &mut Random, value: u32) -> u32 {
    let step = random.pick(&[1, u32::MAX, 256, 1 << 16, 1 << 24]);
    value.wrapping_add(step)
}

pub fn other_small(random: &mut Random, value: u16) -> u16 {
    random.pick(&[0, value - 1, value + 1, value + 256, u16::MAX])
}
