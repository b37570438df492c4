//! The proved implementation beside the reference: what they answer, and how long they take.
mod both;
mod calls;
mod figures;
mod files;
mod proved;
mod seeds;
mod tally;
mod unproved;
mod words;

use std::process::ExitCode;

/// From so many files on, every refusal from 1 to 28 has to occur. The rarest comes about once in 3,000 files.
const FILES_FOR_ALL: u64 = 10_000;

const USAGE: &str = "usage: compare files COUNT | compare figures
files:   every call of both on the libraries of COUNT seeds; ends with 1 at a difference
figures: nanoseconds of both, as a table";

fn main() -> ExitCode {
    let arguments: Vec<String> = std::env::args().skip(1).collect();
    match arguments.as_slice() {
        [part] if part == "figures" => figures::print(),
        [part, count] if part == "files" => match count.parse() {
            Ok(count) => return files(count),
            Err(_) => return usage(),
        },
        _ => return usage(),
    }
    ExitCode::SUCCESS
}

fn usage() -> ExitCode {
    eprintln!("{USAGE}");
    ExitCode::from(2)
}

fn files(count: u64) -> ExitCode {
    let tally = match seeds::compare(count) {
        Ok(tally) => tally,
        Err(difference) => {
            println!("difference: {difference}");
            return ExitCode::FAILURE;
        }
    };
    println!("{tally}");
    let unmet = tally.unmet();
    if unmet.is_empty() {
        println!("no difference, and every refusal from 1 to 28 occurred");
    } else {
        println!("no difference; refusals that did not occur: {unmet:?}");
    }
    if unmet.is_empty() || count < FILES_FOR_ALL {
        ExitCode::SUCCESS
    } else {
        ExitCode::FAILURE
    }
}
