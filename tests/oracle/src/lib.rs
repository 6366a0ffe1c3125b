//! An independent implementation of 01, "The stock history store", with wishes 1 to 6 and 9 of 02, to test
//! other ones against. It is written for plain reading, not for speed: each definition follows a sentence of 01 or 02.

pub mod calls;
#[cfg(feature = "proved")]
pub mod compare;
pub mod generate;
pub mod layout;
pub mod limits;
pub mod listing;
pub mod log;
pub mod mark;
pub mod net_change;
#[cfg(feature = "proved")]
pub mod odd_bytes;
pub mod outset;
#[cfg(feature = "proved")]
pub mod plain;
pub mod position;
#[cfg(feature = "proved")]
pub mod proved;
pub mod random;
pub mod requests;
pub mod samples;
pub mod store;
pub mod table;
pub mod tree;
pub mod units;
