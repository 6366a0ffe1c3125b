//! Runs a listing program on generated inputs and compares what it prints with the oracle's
//! listing.

use oracle::generate::{case, Case};
use oracle::listing::listing;
use oracle::random::Random;
use std::io::Write;
use std::process::{Command, ExitCode, Stdio};
use std::sync::atomic::{AtomicU64, Ordering};
use std::sync::Mutex;

/// The seed where none is given, so that two runs try the same inputs.
const SEED: u64 = 2055;

/// How many programs run at a time.
const WORKERS: usize = 4;

struct Difference {
    number: u64,
    case: Case,
    expected: String,
    got: String,
}

fn main() -> ExitCode {
    let arguments: Vec<String> = std::env::args().skip(1).collect();
    let Some((program, cases, seed)) = read_arguments(&arguments) else {
        eprintln!("usage: compare_listing PROGRAM CASES [SEED]");
        return ExitCode::FAILURE;
    };
    match first_difference(program, cases, seed) {
        None => {
            println!("{cases} listings agree (seed {seed})");
            ExitCode::SUCCESS
        }
        Some(difference) => {
            report(&difference, seed);
            ExitCode::FAILURE
        }
    }
}

fn read_arguments(arguments: &[String]) -> Option<(&str, u64, u64)> {
    let (program, cases, seed) = match arguments {
        [program, cases] => (program, cases, SEED),
        [program, cases, seed] => (program, cases, seed.parse().ok()?),
        _ => return None,
    };
    Some((program, cases.parse().ok()?, seed))
}

/// The difference of the smallest case number. Cases are handed out in order, so none before it is
/// left out.
fn first_difference(program: &str, cases: u64, seed: u64) -> Option<Difference> {
    let next = AtomicU64::new(0);
    let first: Mutex<Option<Difference>> = Mutex::new(None);
    std::thread::scope(|scope| {
        for _ in 0..WORKERS {
            scope.spawn(|| loop {
                let number = next.fetch_add(1, Ordering::Relaxed);
                if number >= cases || first.lock().unwrap().is_some() {
                    break;
                }
                if let Some(difference) = compare(program, seed, number) {
                    let mut first = first.lock().unwrap();
                    if first.as_ref().is_none_or(|other| number < other.number) {
                        *first = Some(difference);
                    }
                }
            });
        }
    });
    first.into_inner().unwrap()
}

fn compare(program: &str, seed: u64, number: u64) -> Option<Difference> {
    let case = case(&mut Random::for_case(seed, number));
    let expected = listing(&case.bytes);
    let got = run(program, &case.bytes);
    (got.as_bytes() != expected.as_bytes()).then_some(Difference { number, case, expected, got })
}

/// What the program prints on its standard output, or what kept it from doing so.
fn run(program: &str, input: &[u8]) -> String {
    let child = Command::new(program).stdin(Stdio::piped()).stdout(Stdio::piped()).spawn();
    let mut child = match child {
        Ok(child) => child,
        Err(error) => return format!("(not started: {error})"),
    };
    let mut stdin = child.stdin.take().unwrap();
    std::thread::scope(|scope| {
        // A program may end without reading all of its input; that is no difference.
        scope.spawn(move || stdin.write_all(input));
        match child.wait_with_output() {
            Ok(output) if output.status.code().is_none() => format!("(ended by a signal: {})", output.status),
            Ok(output) => String::from_utf8_lossy(&output.stdout).into_owned(),
            Err(error) => format!("(no output: {error})"),
        }
    })
}

fn report(difference: &Difference, seed: u64) {
    let Difference { number, case, expected, got } = difference;
    let file = format!("difference-{seed}-{number}.log");
    println!("seed {seed}, case {number} ({}): the listings differ", case.name);
    match std::fs::write(&file, &case.bytes) {
        Ok(()) => println!("input written to {file}"),
        Err(error) => println!("input not written to {file}: {error}"),
    }
    let mut lines = expected.lines().zip(got.lines()).enumerate();
    if let Some((i, (right, wrong))) = lines.find(|(_, (right, wrong))| right != wrong) {
        println!("line {}: expected `{right}`, got `{wrong}`", i + 1);
    }
    println!("expected:\n{expected}got:\n{got}");
}
