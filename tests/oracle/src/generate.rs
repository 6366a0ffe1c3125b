//! Generators of input for a log reader: legal logs, logs damaged in one field or one rule at a time,
//! and logs damaged in several records.

mod change;
mod damage;
mod legal;
mod several;
mod wrong_end;

pub use legal::legal_log;

use crate::layout::{Header, Record};
use crate::listing::LENT_LOG;
use crate::log::log_bytes;
use crate::random::Random;

/// The most records that a log within the listing's 65,536 bytes has.
pub const MOST_LISTED: u32 = 2_729;

/// A log in its parts, and bytes behind its records.
#[derive(Clone, Debug)]
pub struct Log {
    pub header: Header,
    pub records: Vec<Record>,
    pub behind: Vec<u8>,
}

impl Log {
    pub fn bytes(&self) -> Vec<u8> {
        let mut bytes = log_bytes(&self.header, &self.records);
        bytes.extend(&self.behind);
        bytes
    }
}

/// What makes the bytes of a damaged log of a legal one.
pub type Damage = fn(&mut Random, Log) -> Vec<u8>;

/// All damages by their names.
pub fn damages() -> Vec<(&'static str, Damage)> {
    [&damage::DAMAGES[..], &wrong_end::WRONG_ENDS[..], &several::SEVERAL[..]].concat()
}

/// One input and the name of what it tries.
pub struct Case {
    pub name: &'static str,
    pub bytes: Vec<u8>,
}

/// A legal log, a damaged one, or bytes of no plan.
pub fn case(random: &mut Random) -> Case {
    match random.from(1, 100) {
        1..=50 => Case { name: "legal log", bytes: legal_log(random).bytes() },
        51..=98 => {
            let (name, damage) = random.pick(&damages());
            let log = legal_log(random);
            Case { name, bytes: damage(random, log) }
        }
        _ => {
            let length = random.pick(&[0, 1, 23, 24, 25, 48, 1000, LENT_LOG, LENT_LOG + 1]);
            Case { name: "any bytes", bytes: random.bytes(length) }
        }
    }
}
