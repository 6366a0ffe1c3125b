//! Writes the samples of the listing, `NAME.log` and `NAME.out`, into the folder named.

use oracle::listing::listing;
use oracle::samples::samples;
use std::path::PathBuf;
use std::process::ExitCode;

fn main() -> ExitCode {
    let Some(folder) = std::env::args().nth(1).map(PathBuf::from) else {
        eprintln!("usage: make_samples FOLDER");
        return ExitCode::FAILURE;
    };
    let samples = samples();
    for (name, input) in &samples {
        let written = std::fs::write(folder.join(format!("{name}.log")), input)
            .and_then(|()| std::fs::write(folder.join(format!("{name}.out")), listing(input)));
        if let Err(error) = written {
            eprintln!("{name}: {error}");
            return ExitCode::FAILURE;
        }
    }
    println!("{} samples written", samples.len());
    ExitCode::SUCCESS
}
