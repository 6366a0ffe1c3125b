//! Why a call was refused.

use core::{error, fmt};

/// The question answered no. Memory and numbers are as they were before the call, but a refused start or opening
/// leaves a store without numbers, and one by [`WrongRecord`](Refusal::WrongRecord) zeroes index, table and
/// catalogue.
#[derive(Clone, Copy, Debug, PartialEq, Eq, Hash)]
pub enum Refusal {
    /// 1: the numbers, the log's header and the lent lengths do not fit each other
    Header,
    /// 2: the order is not 2 to 64
    Order,
    /// 3: the records per page are not 2 to 64
    PageSize,
    /// 4: the row limit is not 1 to 1,024
    RowLimit,
    /// 5: the log, the index or the table is too short, or there are over 65,536 records
    Memory,
    /// 6: the time is not above the last
    TimeNotAbove,
    /// 7: the article is there already
    ArticlePresent,
    /// 8: the article is not there
    ArticleAbsent,
    /// 9: as many rows are live as the row limit allows
    RowsFull,
    /// 10: the log has no space for the request
    LogFull,
    /// 11: the index has no space for the nodes that the request needs, which may be two
    IndexFull,
    /// 12: the time to keep is after the last request; only a keep is refused so
    TimeAfterLast,
    /// 13: the output or the workspace is too short
    OutputShort,
    /// 14: the time is 0 or is kept already
    NotToKeep,
    /// 15: there is no space for another count file
    CatalogueFull,
    /// 16: no count file of that time is kept
    NotKept,
    /// 17: the log is not legal
    WrongRecord {
        /// the first wrong record: the smallest k such that records 0 to k begin no legal log, or the number of records
        /// where only the header's last time is wrong. Either way so many records from the start are legal
        record: u32,
    },
    /// 18: the mark is not 0, 5 or 7; to drop by mark, not 5 or 7
    WrongMark,
}

impl Refusal {
    /// The question's number in 01 or 02, 1 to 18.
    pub fn question(self) -> u8 {
        match self {
            Refusal::Header => 1,
            Refusal::Order => 2,
            Refusal::PageSize => 3,
            Refusal::RowLimit => 4,
            Refusal::Memory => 5,
            Refusal::TimeNotAbove => 6,
            Refusal::ArticlePresent => 7,
            Refusal::ArticleAbsent => 8,
            Refusal::RowsFull => 9,
            Refusal::LogFull => 10,
            Refusal::IndexFull => 11,
            Refusal::TimeAfterLast => 12,
            Refusal::OutputShort => 13,
            Refusal::NotToKeep => 14,
            Refusal::CatalogueFull => 15,
            Refusal::NotKept => 16,
            Refusal::WrongRecord { .. } => 17,
            Refusal::WrongMark => 18,
        }
    }

    /// The refusal of an answer, `None` where it was accepted. The library answers 0 to 18.
    pub(crate) fn of(question: u8, record: u32) -> Option<Refusal> {
        Some(match question {
            0 => return None,
            2 => Refusal::Order,
            3 => Refusal::PageSize,
            4 => Refusal::RowLimit,
            5 => Refusal::Memory,
            6 => Refusal::TimeNotAbove,
            7 => Refusal::ArticlePresent,
            8 => Refusal::ArticleAbsent,
            9 => Refusal::RowsFull,
            10 => Refusal::LogFull,
            11 => Refusal::IndexFull,
            12 => Refusal::TimeAfterLast,
            13 => Refusal::OutputShort,
            14 => Refusal::NotToKeep,
            15 => Refusal::CatalogueFull,
            16 => Refusal::NotKept,
            17 => Refusal::WrongRecord { record },
            18 => Refusal::WrongMark,
            _ => Refusal::Header,
        })
    }

    fn text(self) -> &'static str {
        match self {
            Refusal::Header => "the numbers, the log's header and the lent lengths do not fit each other",
            Refusal::Order => "the order is not 2 to 64",
            Refusal::PageSize => "the records per page are not 2 to 64",
            Refusal::RowLimit => "the row limit is not 1 to 1,024",
            Refusal::Memory => {
                "the log, the index or the table is too short, or there are over 65,536 records"
            }
            Refusal::TimeNotAbove => "the time is not above the last",
            Refusal::ArticlePresent => "the article is there already",
            Refusal::ArticleAbsent => "the article is not there",
            Refusal::RowsFull => "as many rows are live as the row limit allows",
            Refusal::LogFull => "the log has no space for the request",
            Refusal::IndexFull => "the index has no space for the nodes that the request needs",
            Refusal::TimeAfterLast => "the time to keep is after the last request",
            Refusal::OutputShort => "the output or the workspace is too short",
            Refusal::NotToKeep => "the time is 0 or is kept already",
            Refusal::CatalogueFull => "there is no space for another count file",
            Refusal::NotKept => "no count file of that time is kept",
            Refusal::WrongRecord { .. } => "the log is not legal",
            Refusal::WrongMark => "the mark is not 0, 5 or 7; to drop by mark, not 5 or 7",
        }
    }
}

impl fmt::Display for Refusal {
    fn fmt(&self, f: &mut fmt::Formatter<'_>) -> fmt::Result {
        write!(f, "refused by {}: {}", self.question(), self.text())?;
        match self {
            Refusal::WrongRecord { record } => write!(f, " beyond its first {record} records"),
            _ => Ok(()),
        }
    }
}

impl error::Error for Refusal {}

#[cfg(test)]
mod tests {
    use super::Refusal;
    extern crate std;
    use std::string::ToString;

    /// Each refusal's number and words, in the order of the numbers.
    #[test]
    fn words() {
        let all = [
            (Refusal::Header, "1: the numbers, the log's header and the lent lengths do not fit each other"),
            (Refusal::Order, "2: the order is not 2 to 64"),
            (Refusal::PageSize, "3: the records per page are not 2 to 64"),
            (Refusal::RowLimit, "4: the row limit is not 1 to 1,024"),
            (
                Refusal::Memory,
                "5: the log, the index or the table is too short, or there are over 65,536 records",
            ),
            (Refusal::TimeNotAbove, "6: the time is not above the last"),
            (Refusal::ArticlePresent, "7: the article is there already"),
            (Refusal::ArticleAbsent, "8: the article is not there"),
            (Refusal::RowsFull, "9: as many rows are live as the row limit allows"),
            (Refusal::LogFull, "10: the log has no space for the request"),
            (Refusal::IndexFull, "11: the index has no space for the nodes that the request needs"),
            (Refusal::TimeAfterLast, "12: the time to keep is after the last request"),
            (Refusal::OutputShort, "13: the output or the workspace is too short"),
            (Refusal::NotToKeep, "14: the time is 0 or is kept already"),
            (Refusal::CatalogueFull, "15: there is no space for another count file"),
            (Refusal::NotKept, "16: no count file of that time is kept"),
            (Refusal::WrongRecord { record: 4 }, "17: the log is not legal beyond its first 4 records"),
            (Refusal::WrongMark, "18: the mark is not 0, 5 or 7; to drop by mark, not 5 or 7"),
        ];
        for (number, (refusal, words)) in (1..).zip(all) {
            assert_eq!(Refusal::of(number, 4), Some(refusal));
            assert_eq!(refusal.question(), number);
            assert_eq!(refusal.to_string(), std::format!("refused by {words}"));
        }
        assert_eq!((all.len(), Refusal::of(0, 0)), (18, None));
    }
}
