//! The two sentences of 02's wish 9, held against the proved store itself, from a state that a list of calls has left: the
//! more count files, the fewer requests between or as many; and deletions end the same in any order.

use super::{answer, on_handle};
use crate::calls::{deletions, Call};
use crate::compare::Answer;
use crate::random::Random;
use crate::store::Store;
use crate::table::table_length;

/// How many names `compare` has for what it met.
pub const KINDS: usize = 5;

/// Holds both sentences against the store from this state on: what was met, or what is wrong. 01 leaves them open where the
/// audit denies the state.
pub fn compare(random: &mut Random, store: &Store) -> Result<Vec<&'static str>, String> {
    if !store.audit() {
        return Ok(vec![]);
    }
    let mut met = more_files(random, store)?;
    met.extend(orders(random, store)?);
    Ok(met)
}

/// One file after another goes. For some times, table and view report no fewer requests between without it.
fn more_files(random: &mut Random, store: &Store) -> Result<Vec<&'static str>, String> {
    let (mut more, mut met) = (store.clone(), Vec::new());
    let mut files: Vec<u64> = store.kept().iter().map(|entry| entry.time).collect();
    random.shuffle(&mut files);
    for file in files {
        let mut fewer = more.clone();
        if !accepted(&mut fewer, Call::Drop(file))? {
            return Err(format!("wish 9: the drop of {file} is refused"));
        }
        for t in asked(random, file, more.numbers.last) {
            let [with, without] = [reported(&mut more, t), reported(&mut fewer, t)];
            let never_worse = with.iter().zip(&without).all(|(with, without)| with <= without);
            if !never_worse {
                return Err(format!(
                    "wish 9, time {t}: {with:?} requests between, {without:?} without the file of {file}"
                ));
            }
            met.push(if with == without { "as many requests" } else { "fewer requests" });
        }
        more = fewer;
    }
    Ok(met)
}

/// The time of the file or one beside it, any up to the last, and one after that.
fn asked(random: &mut Random, file: u64, last: u64) -> [u64; 3] {
    let beside = random.pick(&[file, file - 1, file.saturating_add(1)]);
    [beside, random.from(0, last), random.pick(&[last.saturating_add(1), u64::MAX])]
}

/// Requests between as table and view of t answer them. A state that the audit passes has an answer.
fn reported(store: &mut Store, t: u64) -> [u32; 2] {
    let mut output = vec![0; table_length(store.numbers.row_limit)];
    on_handle(store, 0, |handle| {
        let (table, view) = (handle.table(t, &mut output).unwrap(), handle.view(t).unwrap());
        [table.requests_between, view.requests_between]
    })
}

/// Deletions in several orders, and drops alone of the files that went: all of the store ends the same.
fn orders(random: &mut Random, store: &Store) -> Result<Vec<&'static str>, String> {
    let mut calls = deletions(random, store);
    let (end, refused) = after(store, &calls)?;
    let gone = store.kept().iter().filter(|entry| !end.is_kept(entry.time));
    let mut drops: Vec<Call> = gone.map(|entry| Call::Drop(entry.time)).collect();
    let mut met = vec![if drops.is_empty() { "none go" } else { "some go" }];
    for _ in 0..2 {
        random.shuffle(&mut calls);
        random.shuffle(&mut drops);
        for list in [&calls, &drops] {
            let (other, refused_here) = after(store, list)?;
            if other != end {
                return Err(format!("wish 9: another end after {list:?}, though the same files go"));
            }
            if list == &calls && refused_here != refused {
                met.push("more refused in one order");
            }
        }
    }
    Ok(met)
}

/// The store after these deletions, and how many were refused.
fn after(before: &Store, calls: &[Call]) -> Result<(Store, usize), String> {
    let (mut store, mut refused) = (before.clone(), 0);
    for &call in calls {
        refused += !accepted(&mut store, call)? as usize;
    }
    Ok((store, refused))
}

fn accepted(store: &mut Store, deletion: Call) -> Result<bool, String> {
    match answer(store, deletion, 0)? {
        Answer::Change(result) => Ok(result.is_ok()),
        Answer::Gone(result) => Ok(result.is_ok()),
        _ => unreachable!("no deletion"),
    }
}
