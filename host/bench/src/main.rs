//! Measures sections, prints their tables, writes them as CSV, draws two of them. `USAGE` has all options.

use std::process::ExitCode;
use std::{fmt, fs, io, path::Path};

use bench::table::Table;
use bench::{contents, decisive, held, kinds, markdown, names, plot, releases, size, timeouts};
use oracle::help;

const USAGE: &str = "\
usage: bench [--calls N] [--rounds N] [--section NAME].. [--markdown] [--csv FOLDER] [--svg OUT]
  --calls N       calls of the random streams for each cluster, 60,000 if not given
  --rounds N      how often each call is timed, 21 if not given
  --section NAME  only this one; may be given several times
  --markdown      prints the tables as docs/PERFORMANCE.md has them
  --csv FOLDER    writes each section's table to FOLDER/NAME.csv
  --svg OUT       draws the sections size and held
  --help          prints this
sections:
  kinds     every kind of call, accepted and refused, on random streams; n 6, 13, 32
  size      accepted calls of a cluster at work; n 6 to 32
  held      accepted calls while 0 to 120 blocks are held above the tip; n 6
  timeouts  one view change by timeouts; n 6, 13, 32
  decisive  whose timeout decided a timeout certificate; n 6 to 32
  releases  chains of 1 to 128 blocks released at once, and the longest calls known
  names     the name of a block with contents of 0 to 4,096 bytes, beside the same in C
  contents  blocks and proposals that come with contents of 0 to 4,096 bytes, beside the plain calls";

/// In the document's order.
const SECTIONS: [&str; 8] = ["kinds", "size", "held", "timeouts", "decisive", "releases", "names", "contents"];

struct Options {
    calls: usize,
    rounds: usize,
    sections: Vec<String>,
    markdown: bool,
    csv: Option<String>,
    svg: Option<String>,
}

impl Options {
    /// None where they can't be read.
    fn read(mut arguments: impl Iterator<Item = String>) -> Option<Options> {
        let (sections, markdown) = (Vec::new(), false);
        let mut options = Options { calls: 60_000, rounds: 21, sections, markdown, csv: None, svg: None };
        while let Some(option) = arguments.next() {
            if option == "--markdown" {
                options.markdown = true;
                continue;
            }
            let value = arguments.next()?;
            match option.as_str() {
                "--calls" => options.calls = value.parse().ok().filter(|calls| *calls > 0)?,
                "--rounds" => options.rounds = value.parse().ok().filter(|rounds| *rounds > 0)?,
                "--section" if SECTIONS.contains(&&*value) => options.sections.push(value),
                "--csv" => options.csv = Some(value),
                "--svg" => options.svg = Some(value),
                _ => return None,
            }
        }
        Some(options)
    }

    fn asks_for(&self, section: &str) -> bool {
        let drawn = self.svg.is_some() && plot::DRAWN.contains(&section);
        drawn || self.sections.is_empty() || self.sections.iter().any(|asked| asked == section)
    }
}

fn main() -> ExitCode {
    help::answer(USAGE);
    let Some(options) = Options::read(std::env::args().skip(1)) else {
        eprintln!("{USAGE}");
        return ExitCode::FAILURE;
    };
    match run(&options) {
        Ok(()) => ExitCode::SUCCESS,
        Err(error) => {
            eprintln!("bench: {error}");
            ExitCode::FAILURE
        }
    }
}

fn run(options: &Options) -> io::Result<()> {
    let mut tables = Vec::new();
    for section in SECTIONS.into_iter().filter(|section| options.asks_for(section)) {
        let table = measure(section, options);
        if let Some(folder) = &options.csv {
            fs::create_dir_all(folder)?;
            fs::write(Path::new(folder).join(format!("{section}.csv")), table.csv())?;
        }
        tables.push(table);
    }
    let named = |name: &str| tables.iter().find(|table| table.name == name);
    if let (Some(file), Some(size), Some(held)) = (&options.svg, named("size"), named("held")) {
        fs::write(file, plot::draw(size, held))?;
    }
    Ok(())
}

/// Measures a section and prints its table.
fn measure(section: &str, options: &Options) -> Table {
    let table = match section {
        "kinds" => return measure_kinds(options),
        "size" => size::measure(options.rounds),
        "held" => held::measure(options.rounds),
        "timeouts" => timeouts::measure(options.rounds),
        "decisive" => decisive::measure(options.rounds),
        "releases" => releases::measure(options.rounds),
        "names" => names::measure(options.rounds),
        _ => contents::measure(options.rounds),
    };
    print(&table, &[&table], options);
    table
}

fn measure_kinds(options: &Options) -> Table {
    let measured = kinds::measure(options.calls, options.rounds);
    let table = kinds::table(&measured);
    print(&table, &measured, options);
    table
}

/// As Markdown, or else its plain parts.
fn print(table: &Table, parts: &[impl fmt::Display], options: &Options) {
    match options.markdown {
        true => println!("{}", markdown::section(table)),
        false => parts.iter().for_each(|part| println!("{part}")),
    }
}
