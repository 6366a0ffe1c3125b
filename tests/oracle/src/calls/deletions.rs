//! Lists of drops and marked deletions, some refused, to be made in other orders (02, wish 9).

use super::Call;
use crate::mark::TO_DELETE;
use crate::random::Random;
use crate::store::Store;

/// Marks that no marked deletion takes.
const REFUSED: [u32; 12] = [0, 0, 1, 4, 6, 8, 12, 35, 0x105, 7 << 8, 5 << 24, u32::MAX];

/// Up to twelve deletions for the store as it is, sometimes the same one again.
pub fn deletions(random: &mut Random, store: &Store) -> Vec<Call> {
    let many = random.from(0, 12);
    (0..many).map(|_| deletion(random, store)).collect()
}

fn deletion(random: &mut Random, store: &Store) -> Call {
    let lent = &store.memory.catalogue;
    match random.from(0, 9) {
        0..=5 if !store.kept().is_empty() => Call::Drop(random.pick(store.kept()).time),
        // perhaps the time of an unused entry, or of one past the capacity
        6 if !lent.is_empty() => Call::Drop(random.pick(lent).time),
        7 => Call::Drop(random.pick(&[0, 1, store.numbers.last, u64::MAX])),
        8 => Call::DropMarked(random.pick(&REFUSED)),
        _ => Call::DropMarked(random.pick(&TO_DELETE)),
    }
}
