//! Bytes as they are lent to the proved store: at an odd place, between strange bytes that no call may touch.

use std::ops::Range;

/// What stands in memory that no one has written yet.
pub const STRANGE: u8 = 0xA5;

/// Strange bytes on either side.
const MARGIN: usize = 16;

#[derive(Debug)]
pub struct OddBytes {
    around: Vec<u8>,
    place: Range<usize>,
}

impl OddBytes {
    /// A copy of the bytes that begins `odd` % 8 bytes past a multiple of eight.
    pub fn new(bytes: &[u8], odd: usize) -> OddBytes {
        let mut around = vec![STRANGE; bytes.len() + 2 * MARGIN + 16];
        let start = MARGIN + around[MARGIN..].as_ptr().align_offset(8) + odd % 8;
        let place = start..start + bytes.len();
        around[place.clone()].copy_from_slice(bytes);
        OddBytes { around, place }
    }

    pub fn bytes(&mut self) -> &mut [u8] {
        &mut self.around[self.place.clone()]
    }

    /// The bytes as they came back.
    pub fn back(self) -> Vec<u8> {
        let Range { start, end } = self.place;
        let sides = [&self.around[..start], &self.around[end..]];
        let kept = sides.iter().all(|side| side.iter().all(|byte| *byte == STRANGE));
        assert!(kept, "a byte beside {} lent ones was touched", end - start);
        self.around[start..end].to_vec()
    }
}
