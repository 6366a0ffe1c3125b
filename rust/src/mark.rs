//! What is to become of a count file.

use crate::Refusal;
use core::{error, fmt};

/// What is to become of a count file. The store knows no weekday: a file goes when
/// [`Store::drop_marked`](crate::Store::drop_marked) is called with its mark, or
/// [`Store::drop_file`](crate::Store::drop_file) with its time.
///
/// An entry of the catalogue, and the calls of [`raw`](crate::raw), have its number:
///
/// ```
/// use yokefennel::{Mark, UnknownMark};
///
/// assert_eq!((Mark::Friday.number(), u32::from(Mark::Sunday)), (5, 7));
/// assert_eq!(Mark::try_from(0), Ok(Mark::Permanent));
/// assert_eq!(Mark::try_from(6), Err(UnknownMark(6)));
/// ```
#[repr(u32)]
#[derive(Clone, Copy, Debug, Default, PartialEq, Eq, Hash)]
pub enum Mark {
    /// 0: it goes only when it is dropped by its time
    #[default]
    Permanent = 0,
    /// 5: it goes on Friday
    Friday = 5,
    /// 7: it goes on Sunday
    Sunday = 7,
}

/// A number that is no mark's. As a [`Refusal`] it is [`WrongMark`](Refusal::WrongMark), so that `?` turns it into one.
#[derive(Clone, Copy, Debug, PartialEq, Eq, Hash)]
pub struct UnknownMark(
    /// the number
    pub u32,
);

impl Mark {
    /// Its number: 0, 5 or 7.
    pub const fn number(self) -> u32 {
        self as u32
    }
}

impl From<Mark> for u32 {
    fn from(mark: Mark) -> u32 {
        mark.number()
    }
}

impl TryFrom<u32> for Mark {
    type Error = UnknownMark;

    fn try_from(number: u32) -> Result<Mark, UnknownMark> {
        match number {
            0 => Ok(Mark::Permanent),
            5 => Ok(Mark::Friday),
            7 => Ok(Mark::Sunday),
            _ => Err(UnknownMark(number)),
        }
    }
}

impl fmt::Display for UnknownMark {
    fn fmt(&self, f: &mut fmt::Formatter<'_>) -> fmt::Result {
        write!(f, "the mark {} is not 0, 5 or 7", self.0)
    }
}

impl error::Error for UnknownMark {}

impl From<UnknownMark> for Refusal {
    fn from(_: UnknownMark) -> Refusal {
        Refusal::WrongMark
    }
}

#[cfg(test)]
mod tests {
    use super::{Mark, UnknownMark};
    use crate::Refusal;
    extern crate std;
    use std::string::ToString;

    #[test]
    fn three_numbers_are_marks() {
        for number in (0..300).chain([65_541, 0x0500_0000, 0x8000_0007, u32::MAX]) {
            match Mark::try_from(number) {
                Ok(mark) => assert!([0, 5, 7].contains(&number) && mark.number() == number),
                Err(unknown) => assert!(![0, 5, 7].contains(&number) && unknown == UnknownMark(number)),
            }
        }
        let marks = [Mark::Permanent, Mark::Friday, Mark::Sunday];
        assert_eq!(marks.map(u32::from), [0, 5, 7]);
        assert_eq!(Mark::default(), Mark::Permanent);
    }

    #[test]
    fn unknown_marks_in_words_and_as_a_refusal() {
        assert_eq!(UnknownMark(6).to_string(), "the mark 6 is not 0, 5 or 7");
        let marked = |number| -> Result<Mark, Refusal> { Ok(Mark::try_from(number)?) };
        assert_eq!((marked(5), marked(6)), (Ok(Mark::Friday), Err(Refusal::WrongMark)));
    }
}
