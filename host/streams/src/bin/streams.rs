//! Writes input files of the run program, or prints what streams cover.

use std::io::{self, Write};
use std::path::Path;
use std::process::ExitCode;

use streams::{input, lent_input, play_stream, reachable, Coverage, LentCoverage, Opening, Stream, UNREACHABLE};

const USAGE: &str = "\
usage: streams input SEED CALLS [F C K OWN] > FILE   one input of the run program
       streams files DIR FIRST COUNT CALLS           many inputs, one file for each seed
       streams coverage FIRST COUNT CALLS            plays streams and prints what they cover
       streams lent FIRST STATES CALLS > FILE        one input of the program over lent regions
       streams lent-coverage FIRST STATES CALLS      prints what such an input covers
  SEED       what the stream follows from
  FIRST      the first seed of several
  COUNT      how many streams, one for each seed
  STATES     how many states are lent, one for each seed
  CALLS      how many calls in each stream, or on each state
  F C K OWN  settings and own number; they follow from the seed if not given
  DIR        the folder for the files; it is made if it isn't there
  --help     prints this";

fn main() -> ExitCode {
    oracle::help::answer(USAGE);
    let arguments: Vec<String> = std::env::args().skip(1).collect();
    let arguments: Vec<&str> = arguments.iter().map(String::as_str).collect();
    match perform(&arguments) {
        Some(Ok(())) => ExitCode::SUCCESS,
        Some(Err(error)) => {
            eprintln!("streams: {error}");
            ExitCode::FAILURE
        }
        None => {
            eprintln!("{USAGE}");
            ExitCode::from(2)
        }
    }
}

/// None if the arguments aren't understood.
fn perform(arguments: &[&str]) -> Option<io::Result<()>> {
    match arguments {
        ["input", numbers @ ..] => {
            let numbers = numbers.iter().map(|text| text.parse().ok()).collect::<Option<Vec<u64>>>()?;
            let (seed, calls, opening) = match numbers[..] {
                [seed, calls] => (seed, calls, Opening::seeded(seed)),
                [seed, calls, f, c, k, own] => (seed, calls, Opening::new(f, c, k, own)?),
                _ => return None,
            };
            Some(io::stdout().write_all(&input(opening, seed, calls as usize)))
        }
        ["files", directory, first, count, calls] => {
            Some(write_files(Path::new(directory), first.parse().ok()?, count.parse().ok()?, calls.parse().ok()?))
        }
        ["coverage", first, count, calls] => {
            print_coverage(first.parse().ok()?, count.parse().ok()?, calls.parse().ok()?);
            Some(Ok(()))
        }
        [what @ ("lent" | "lent-coverage"), first, states, calls] => {
            let first = first.parse().ok()?;
            let seeds = first..first + states.parse::<u64>().ok()?;
            let mut coverage = LentCoverage::default();
            let bytes = lent_input(seeds, calls.parse().ok()?, &mut coverage);
            if *what == "lent-coverage" {
                println!("{coverage}");
                return Some(Ok(()));
            }
            Some(io::stdout().write_all(&bytes))
        }
        _ => None,
    }
}

fn write_files(directory: &Path, first: u64, count: u64, calls: usize) -> io::Result<()> {
    std::fs::create_dir_all(directory)?;
    for seed in first..first + count {
        let bytes = input(Opening::seeded(seed), seed, calls);
        std::fs::write(directory.join(format!("{seed}.input")), bytes)?;
    }
    Ok(())
}

fn print_coverage(first: u64, count: u64, calls: usize) {
    let mut coverage = Coverage::default();
    for seed in first..first + count {
        play_stream(Opening::seeded_led(seed), Stream::new(seed).with_contents(), calls, &mut coverage);
    }
    println!("{coverage}");
    println!("not reached: {:?} {:?}", coverage.missing(&reachable()), coverage.missing_paths());
    println!("contents not reached: {:?}", coverage.missing_cases());
    for (call, answer, reason) in UNREACHABLE {
        println!("unreachable: {call} {answer}: {reason}");
    }
}
