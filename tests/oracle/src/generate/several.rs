//! Damage to two or three records of a legal log, far apart, and to the last time as well.

use super::change::{WRONG_ALONE, WRONG_AMONG_OTHERS};
use super::{Damage, Log};
use crate::log::last_time;
use crate::random::Random;

pub const SEVERAL: [(&str, Damage); 4] = [
    ("two records", |random, log| records(random, log, 2).bytes()),
    ("three records", |random, log| records(random, log, 3).bytes()),
    ("two records and the last time", |random, log| records_and_last_time(random, log, 2)),
    ("three records and the last time", |random, log| records_and_last_time(random, log, 3)),
];

/// Changes so many records. The header's last time goes with the last record.
fn records(random: &mut Random, mut log: Log, many: usize) -> Log {
    for k in places(random, log.records.len(), many) {
        let changes = random.pick(&[WRONG_ALONE, WRONG_AMONG_OTHERS]);
        let change = random.pick(&changes);
        change(random, &mut log.records[k]);
    }
    log.header.last = last_time(&log.records);
    log
}

fn records_and_last_time(random: &mut Random, log: Log, many: usize) -> Vec<u8> {
    let mut log = records(random, log, many);
    let step = random.pick(&[1, u64::MAX, 256, 1 << 32, 1 << 63]);
    log.header.last = log.header.last.wrapping_add(step);
    log.bytes()
}

/// One place in the front half of each of so many stretches, or the first and the last place of all.
/// All places where there are fewer.
fn places(random: &mut Random, length: usize, many: usize) -> Vec<usize> {
    let stretch = length / many;
    if stretch == 0 {
        return (0..length).collect();
    }
    let place = |i| i * stretch + random.place(stretch.div_ceil(2));
    let mut places: Vec<usize> = (0..many).map(place).collect();
    if random.percent(20) {
        places[0] = 0;
    }
    if random.percent(20) {
        places[many - 1] = length - 1;
    }
    places
}
