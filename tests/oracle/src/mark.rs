//! The marks of count files (02, wish 3): "0 permanent, 5 goes on Friday, 7 goes on Sunday". A mark is a number of 32
//! bits, so that wrong ones can be held too.

pub const PERMANENT: u32 = 0;
pub const FRIDAY: u32 = 5;
pub const SUNDAY: u32 = 7;

/// What a keep takes and a count file has.
pub const MARKS: [u32; 3] = [PERMANENT, FRIDAY, SUNDAY];

/// What the marked deletion takes. Permanent files are dropped by their times.
pub const TO_DELETE: [u32; 2] = [FRIDAY, SUNDAY];
