//! The limits of 01, "Log bytes" and "Count files". Both ends of a range are allowed.

use std::ops::RangeInclusive;

pub const ORDERS: RangeInclusive<u16> = 2..=64;
pub const PAGE_SIZES: RangeInclusive<u16> = 2..=64;
pub const ROW_LIMITS: RangeInclusive<u32> = 1..=1024;
pub const MOST_RECORDS: u32 = 65_536;
pub const MOST_FILES: usize = 16;
