//! Makes random lists of calls on small stores, by the oracle and by the proved store, and compares them byte by byte after
//! each call. Bytes are lent at odd places, others from call to call. From the state that a list leaves, the proved store is
//! then held against wish 9 of 02.

use oracle::calls::{last_records, start, Call, Late, Marks, Plan};
use oracle::compare::{self, question_1, Difference, Notes};
use oracle::proved::fewer_files;
use oracle::random::Random;
use oracle::store::Store;
use std::collections::BTreeMap;
use std::panic::catch_unwind;
use std::process::ExitCode;

/// The seed where none is given, so that two runs make the same lists.
const SEED: u64 = 2055;

/// A run of so many lists must meet every kind of time after the last request and of mark.
const LONG: u64 = 2_000;

/// Stores near the most records there are: order, page size, records left.
const ENDS: [(u16, u16, u32); 4] = [(64, 64, 2), (64, 64, 1), (3, 2, 2), (2, 2, 1)];

/// What lists met where answers are compared whole, and where question 1 is answered no.
#[derive(Default)]
struct Met {
    late: Late,
    marks: Marks,
    /// from the states that lists leave (02, wish 9)
    fewer_files: BTreeMap<&'static str, u64>,
}

impl Notes for Met {
    fn before(&mut self, call: &Call, store: &Store, denied: bool) {
        let question_1 = question_1(store);
        if question_1 && !denied {
            self.late.note(call, store.numbers.last);
        }
        if !question_1 || !denied {
            self.marks.note(call, store);
        }
    }
}

impl Met {
    fn add(&mut self, Met { late, marks, fewer_files }: Met) {
        self.late.add(late);
        self.marks.add(marks);
        fewer_files.into_iter().for_each(|(what, often)| *self.fewer_files.entry(what).or_default() += often);
    }

    /// Whether every kind was met.
    fn all(&self) -> bool {
        self.late.all().iter().all(|(_, often)| *often > 0)
            && self.marks.each(1)
            && self.fewer_files.len() == fewer_files::KINDS
    }
}

fn main() -> ExitCode {
    let arguments: Vec<String> = std::env::args().skip(1).collect();
    let Some((lists, seed)) = read_arguments(&arguments) else {
        eprintln!("usage: compare_calls LISTS [SEED]");
        return ExitCode::FAILURE;
    };
    for (order, page_size, left) in ENDS {
        if let Err(difference) = compare_end(order, page_size, left) {
            return report(
                &format!("order {order}, page size {page_size}, {left} records left"),
                &difference,
            );
        }
    }
    let mut met = Met::default();
    for number in 0..lists {
        match catch_unwind(|| compare_list(&mut Random::for_case(seed, number))) {
            Ok(Ok(of_list)) => met.add(of_list),
            Ok(Err(difference)) => return report(&format!("seed {seed}, list {number}"), &difference),
            Err(_) => {
                println!("seed {seed}, list {number}: stopped");
                return ExitCode::FAILURE;
            }
        }
    }
    println!("{lists} lists of calls agree (seed {seed})");
    report_late(&met.late);
    report_marks(&met.marks);
    report_fewer_files(&met.fewer_files);
    if !met.all() && lists >= LONG {
        println!("one of these was never met");
        return ExitCode::FAILURE;
    }
    ExitCode::SUCCESS
}

/// How often which call was asked for a time after the last request.
fn report_late(late: &Late) {
    println!("times after the last request:");
    for kinds in late.all().chunk_by(|(kind, _), (next, _)| kind[..2] == next[..2]) {
        let [name, which, _] = kinds[0].0;
        let each: Vec<String> = kinds.iter().map(|([.., far], often)| format!("{far} {often}")).collect();
        println!("  {name}, {which}: {}", each.join(", "));
    }
}

/// How often which call met what of the marks.
fn report_marks(marks: &Marks) {
    println!("marks:");
    for kinds in marks.all().chunk_by(|([name, _], _), ([next, _], _)| name == next) {
        let each: Vec<String> = kinds.iter().map(|([_, what], often)| format!("{what} {often}")).collect();
        println!("  {}: {}", kinds[0].0[0], each.join("; "));
    }
}

/// How often what was met from the states that lists leave.
fn report_fewer_files(fewer_files: &BTreeMap<&str, u64>) {
    let each: Vec<String> = fewer_files.iter().map(|(what, often)| format!("{what} {often}")).collect();
    println!("fewer files: {}", each.join("; "));
}

fn report(list: &str, difference: &Difference) -> ExitCode {
    println!("{list}: {difference}");
    ExitCode::FAILURE
}

fn read_arguments(arguments: &[String]) -> Option<(u64, u64)> {
    match arguments {
        [lists] => Some((lists.parse().ok()?, SEED)),
        [lists, seed] => Some((lists.parse().ok()?, seed.parse().ok()?)),
        _ => None,
    }
}

/// One list, up to its end or the first difference: what it met where answers are compared whole.
fn compare_list(random: &mut Random) -> Result<Met, Difference> {
    let (memory, first) = start(random);
    let plan = Plan::new(random);
    let mut met = Met::default();
    let end = compare::list(random, &plan, memory, first, &mut met)?;
    let fewer_files =
        fewer_files::compare(random, &end).map_err(|what| Difference { calls: vec![], what })?;
    for what in fewer_files {
        *met.fewer_files.entry(what).or_default() += 1;
    }
    Ok(met)
}

/// The list of a store near its last record.
fn compare_end(order: u16, page_size: u16, left: u32) -> Result<(), Difference> {
    let (memory, calls) = last_records(order, page_size, left);
    let mut oracle = Store::over(memory);
    let mut proved = oracle.clone();
    for (k, &call) in calls.iter().enumerate() {
        compare::whole(&mut oracle, &mut proved, call, k)
            .map_err(|what| Difference { calls: calls[..=k].to_vec(), what })?;
    }
    Ok(())
}
