//! The run program, with the records on standard input.

use std::io::{self, BufWriter, Read, Write};
use std::process::ExitCode;

use oracle::run::{run, Options};
use oracle::{help, Faults};

const USAGE: &str = "\
usage: run [--trace] [--FAULT].. < FILE
FILE is an input of 01's run program: an opening, then records. One line is printed for each call.
  --trace  each line ends with the call's output in hex, `-` if it wrote nothing
  --FAULT  an error built into the replica; several may be given
  --help   prints this
FAULT is one of:";

fn main() -> ExitCode {
    let usage = format!("{USAGE}\n  {}", Faults::NAMES.join("\n  "));
    help::answer(&usage);
    let Some(options) = options(std::env::args().skip(1)) else {
        eprintln!("{usage}");
        return ExitCode::from(2);
    };
    match play(options) {
        Ok(()) => ExitCode::SUCCESS,
        Err(error) => {
            eprintln!("run: {error}");
            ExitCode::FAILURE
        }
    }
}

/// None if an argument isn't known.
fn options(arguments: impl Iterator<Item = String>) -> Option<Options> {
    let mut options = Options::default();
    for argument in arguments {
        let name = argument.strip_prefix("--")?;
        if name == "trace" {
            options.trace = true;
        } else if !options.faults.set(name) {
            return None;
        }
    }
    Some(options)
}

fn play(options: Options) -> io::Result<()> {
    let mut input = Vec::new();
    io::stdin().read_to_end(&mut input)?;
    let mut lines = BufWriter::new(io::stdout().lock());
    run(&input, options, &mut lines)?;
    lines.flush()
}
