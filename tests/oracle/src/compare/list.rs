//! A list of calls, made by both stores and compared after each call.

use super::{denied, whole, Answer};
use crate::calls::{call, damage, Call, Plan};
use crate::random::Random;
use crate::store::{Memory, Store};
use std::fmt;

/// What a run notes of its calls; `denied` where the audit denies the memory, and only what is promised there is compared.
pub trait Notes {
    fn before(&mut self, _call: &Call, _store: &Store, _denied: bool) {}
    fn after(&mut self, _call: &Call, _answer: &Answer, _denied: bool) {}
}

/// The calls up to the one after which the stores differ, and how.
pub struct Difference {
    pub calls: Vec<Call>,
    pub what: String,
}

impl fmt::Display for Difference {
    fn fmt(&self, f: &mut fmt::Formatter) -> fmt::Result {
        write!(f, "the stores differ after call {}\n{}", self.calls.len(), self.what)?;
        self.calls.iter().try_for_each(|call| write!(f, "\n  {call:?}"))
    }
}

/// One list, up to its end or the first difference: the proved store as the list leaves it.
pub fn list(
    random: &mut Random,
    plan: &Plan,
    memory: Memory,
    first: Call,
    notes: &mut impl Notes,
) -> Result<Store, Difference> {
    let mut oracle = Store::over(memory);
    // numbers and memory of the proved store
    let mut proved = oracle.clone();
    let (mut calls, mut damaged, mut next) = (Vec::new(), false, first);
    for _ in 0..plan.calls {
        calls.push(next);
        if let Call::Damage(seed) = next {
            damaged = true;
            damage(&mut oracle, seed);
            proved = oracle.clone();
            next = Call::Audit;
        }
        damaged &= !matches!(next, Call::Fresh(..) | Call::Open);
        // starts and the audit are promised on any memory
        let is_denied = damaged && next != Call::Audit && !oracle.audit();
        notes.before(&next, &oracle, is_denied);
        let compare = if is_denied { denied } else { whole };
        let answer = compare(&mut oracle, &mut proved, next, calls.len())
            .map_err(|what| Difference { calls: calls.clone(), what })?;
        notes.after(&next, &answer, is_denied);
        next = call(random, plan, &oracle);
    }
    calls.push(Call::Audit);
    whole(&mut oracle, &mut proved, Call::Audit, 0).map_err(|what| Difference { calls, what })?;
    Ok(proved)
}
