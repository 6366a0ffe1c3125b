//! Makes lists of calls on large stores, by the oracle and by the proved store, and compares them byte by byte after each
//! call: a row limit of 1,024, thousands of records, articles, counts and times in all their bytes, net changes of over 300
//! entries, and a stranger's damage. Every list must meet what it is there for.

use oracle::calls::{large_log, large_memory, Call, Plan};
use oracle::compare::{self, Answer, Notes};
use oracle::limits::ROW_LIMITS;
use oracle::random::Random;
use oracle::requests::{requests, Request};
use oracle::store::Store;
use std::process::ExitCode;

/// Order, page size and records of the logs that are opened, and in a hundred calls how many are a stranger's damage.
const OPENED: [(u16, u16, u32, u64); 6] = [
    (64, 64, 6_000, 0),
    (3, 2, 4_000, 0),
    (2, 5, 3_000, 2),
    (8, 16, 3_000, 5),
    (5, 7, 2_500, 8),
    (64, 2, 2_500, 12),
];

/// Lists that begin with each of these, and calls of each list.
const ROUNDS: u64 = 5;
const CALLS: u64 = 200;

/// Requests of the list that begins with a fresh store.
const APPENDS: u32 = 1_500;

/// What was met: tables and views of over 1,000 rows, net changes of over 300 entries, answers on denied memory.
#[derive(Default)]
struct Large {
    calls: u64,
    tables: u64,
    views: u64,
    net_changes: u64,
    denied: u64,
}

impl Notes for Large {
    fn after(&mut self, _: &Call, answer: &Answer, denied: bool) {
        self.calls += 1;
        self.denied += denied as u64;
        match answer {
            Answer::Table(..) => self.tables += (answer.size() > 1_000) as u64,
            Answer::View(..) => self.views += (answer.size() > 1_000) as u64,
            Answer::NetChange(..) => self.net_changes += (answer.size() > 300) as u64,
            _ => {}
        }
    }
}

fn main() -> ExitCode {
    let mut met = Large::default();
    for round in 0..ROUNDS {
        for (order, page_size, records, damage) in OPENED {
            let random = &mut Random::for_case(records as u64 + damage, round);
            let log = large_log(random, order, page_size, records);
            let memory = large_memory(order, page_size, records + CALLS as u32, &log);
            let compared = compare::list(random, &Plan::large(damage, CALLS), memory, Call::Open, &mut met);
            if let Err(difference) = compared {
                println!(
                    "order {order}, page size {page_size}, {records} records, round {round}: {difference}"
                );
                return ExitCode::FAILURE;
            }
        }
    }
    if let Err(what) = compare_appends(&mut met) {
        println!("a store that grows: {what}");
        return ExitCode::FAILURE;
    }
    let Large { calls, tables, views, net_changes, denied } = met;
    println!(
        "{calls} calls on large stores agree: {tables} tables and {views} views of over 1,000 rows, {net_changes} net changes \
         of over 300 entries, {denied} calls on denied memory"
    );
    if [tables, views, net_changes, denied].contains(&0) {
        println!("one of these was never met");
        return ExitCode::FAILURE;
    }
    ExitCode::SUCCESS
}

/// A store that grows from nothing, compared after each request, and then asked for all of its rows.
fn compare_appends(met: &mut Large) -> Result<(), String> {
    let (order, page_size, row_limit) = (4, 6, *ROW_LIMITS.end());
    let requests = requests(&mut Random::new(2055), row_limit, APPENDS, None);
    let mut oracle = Store::over(large_memory(order, page_size, APPENDS, &[]));
    let mut proved = oracle.clone();
    let mut calls = vec![Call::Fresh(order, page_size, row_limit)];
    calls.extend(requests.iter().map(|&request| match request {
        Request::Insert(time, article, count) => Call::Insert(time, article, count),
        Request::Delete(time, article) => Call::Delete(time, article),
        Request::Update(time, article, count) => Call::Update(time, article, count),
    }));
    let table = oracle.memory.table.len();
    calls.extend([
        Call::Table(u64::MAX, table),
        Call::NetChange(0, u64::MAX, 3 * table, 2 * table),
        Call::Audit,
    ]);
    for (k, call) in calls.into_iter().enumerate() {
        let answer = compare::whole(&mut oracle, &mut proved, call, k)
            .map_err(|what| format!("call {k}, {call:?}: {what}"))?;
        met.after(&call, &answer, false);
    }
    Ok(())
}
