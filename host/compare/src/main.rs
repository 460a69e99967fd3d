//! Compares library and oracle on seeded runs, or replays a mismatch.

use std::process::ExitCode;

use compare::{compare_decisive, compare_names, compare_part, replay, replay_decisive, replay_name, Kind};
use oracle::{help, Faults};
use streams::{DecisiveCall, NameCall};

const USAGE: &str = "\
usage: compare CALLS [FIRST_SEED]
       compare replay FILE
  CALLS       so many calls from openings are compared, as many from garbage, a tenth as many that name a decisive timeout,
              and a tenth as many that name a block
  FIRST_SEED  runs follow from seeds from this one on, 0 if not given
  FILE        has the lines that a mismatch printed; they are played again
  --help      prints this";

fn main() -> ExitCode {
    help::answer(USAGE);
    let arguments: Vec<String> = std::env::args().skip(1).collect();
    let arguments: Vec<&str> = arguments.iter().map(String::as_str).collect();
    match perform(&arguments) {
        Ok(()) => ExitCode::SUCCESS,
        Err(text) => {
            eprintln!("{text}");
            ExitCode::FAILURE
        }
    }
}

fn perform(arguments: &[&str]) -> Result<(), String> {
    let number = |text: &str| text.parse::<u64>().map_err(|_| USAGE.to_string());
    match arguments {
        ["replay", file] => {
            let text = std::fs::read_to_string(file).map_err(|error| format!("{file}: {error}"))?;
            if let Some(mismatch) = replay_any(&text)? {
                return Err(mismatch);
            }
            println!("no difference");
            Ok(())
        }
        [calls] => compare_all(number(calls)?, 0),
        [calls, first] => compare_all(number(calls)?, number(first)?),
        _ => Err(USAGE.to_string()),
    }
}

/// A run, or one call that names a decisive timeout or a block.
fn replay_any(text: &str) -> Result<Option<String>, String> {
    if text.lines().any(|line| line.starts_with("decisive ")) {
        return Ok(replay_decisive(text, DecisiveCall::make)?.map(|mismatch| mismatch.to_string()));
    }
    if text.lines().any(|line| line.starts_with("name ")) {
        return Ok(replay_name(text, NameCall::make)?.map(|mismatch| mismatch.to_string()));
    }
    Ok(replay(text, Faults::NONE)?.map(|mismatch| mismatch.to_string()))
}

fn compare_all(calls: u64, first: u64) -> Result<(), String> {
    for kind in [Kind::Opened, Kind::Garbage] {
        println!("{kind:?}, seeds from {first} on");
        let tally = compare_part(kind, first, calls, Faults::NONE).map_err(|mismatch| mismatch.to_string())?;
        println!("{tally}\n");
    }
    println!("Decisive timeouts, seeds from {first} on");
    let coverage = compare_decisive(first, calls / 10, DecisiveCall::make).map_err(|mismatch| mismatch.to_string())?;
    println!("{coverage}\n");
    println!("Names, seeds from {first} on");
    let coverage = compare_names(first, calls / 10, NameCall::make).map_err(|mismatch| mismatch.to_string())?;
    println!("{coverage}");
    Ok(())
}
