//! `cluster run` plays one cluster; the other subcommands are its processes.

use std::error::Error;
use std::io::{self, Read};
use std::path::PathBuf;
use std::process::ExitCode;
use std::time::Duration;
use std::{env, fs, process, thread};

use cluster::host::{Breach, Halt, Host, Options, Point};
use cluster::supervisor::{self, Plan};
use cluster::{byzantine, keys_file};
use oracle::help;

const USAGE: &str = "\
usage: cluster run [--seed S] [--releases N] [--deadline SECONDS] [--no-faults] [--sync] [--breach BREACH]
       cluster replica FOLDER OWN [--sync] [--halt CALL POINT] [--breach BREACH]
       cluster byzantine FOLDER OWN SEED
`run` plays one cluster and prints its summary. The others are its processes, which it starts itself.
  --seed S            what is drawn follows from it, 1 if not given
  --releases N        how many every live row must have, 20 if not given
  --deadline SECONDS  a run that isn't done by then has failed, 20 if not given
  --no-faults         all six are honest and stay up
  --sync              saves outlast the machine (fsync), not only the process
  --breach BREACH     honest hosts break a duty: sends-first (what they write is sent before it is saved) or forgets (a
                      restarted one opens anew)
  --halt CALL POINT   the process stands still in its so manieth accepted call that sends something, when the replica
                      was called, the new state written, or saved: POINT is called, written or saved
  FOLDER OWN SEED     the run's files, the process's own number, what the Byzantine one draws
  --help              prints this";

type Words = std::iter::Skip<env::Args>;

fn main() -> ExitCode {
    help::answer(USAGE);
    let mut words = env::args().skip(1);
    let done = match words.next().as_deref() {
        Some("run") => run(words),
        Some("replica") => replica(words),
        Some("byzantine") => lie(words),
        _ => Err(USAGE.into()),
    };
    match done {
        Ok(()) => ExitCode::SUCCESS,
        Err(error) => {
            eprintln!("{error}");
            ExitCode::FAILURE
        }
    }
}

/// The next word, read as a value.
fn next<T: std::str::FromStr>(words: &mut Words) -> Result<T, Box<dyn Error>> {
    words.next().and_then(|word| word.parse().ok()).ok_or_else(|| USAGE.into())
}

fn breach(words: &mut Words) -> Result<Breach, Box<dyn Error>> {
    words.next().and_then(|word| Breach::of(&word)).ok_or_else(|| USAGE.into())
}

fn run(mut words: Words) -> Result<(), Box<dyn Error>> {
    let deadline = Duration::from_secs(20);
    let binary = env::current_exe()?;
    let mut plan = Plan { binary, seed: 1, faults: true, releases: 20, deadline, sync: false, breach: None };
    while let Some(word) = words.next() {
        match word.as_str() {
            "--seed" => plan.seed = next(&mut words)?,
            "--releases" => plan.releases = next(&mut words)?,
            "--deadline" => plan.deadline = Duration::from_secs(next(&mut words)?),
            "--no-faults" => plan.faults = false,
            "--sync" => plan.sync = true,
            "--breach" => plan.breach = Some(breach(&mut words)?),
            _ => return Err(USAGE.into()),
        }
    }
    println!("{}", supervisor::run(&plan)?);
    Ok(())
}

fn replica(mut words: Words) -> Result<(), Box<dyn Error>> {
    end_with_input();
    let folder: PathBuf = next(&mut words)?;
    let mut options = Options { folder, own: next(&mut words)?, sync: false, halt: None, breach: None };
    while let Some(word) = words.next() {
        match word.as_str() {
            "--sync" => options.sync = true,
            "--halt" => {
                let call = next(&mut words)?;
                let point = words.next().and_then(|word| Point::of(&word)).ok_or(USAGE)?;
                options.halt = Some(Halt { call, point });
            }
            "--breach" => options.breach = Some(breach(&mut words)?),
            _ => return Err(USAGE.into()),
        }
    }
    let keys = fs::read(keys_file(&options.folder))?;
    let keys = keys.as_chunks().0.to_vec();
    Ok(Host::start(options, keys)?.run()?)
}

fn lie(mut words: Words) -> Result<(), Box<dyn Error>> {
    end_with_input();
    let folder: PathBuf = next(&mut words)?;
    let (own, seed) = (next(&mut words)?, next(&mut words)?);
    Ok(byzantine::run(&folder, own, seed)?)
}

/// Ends the process when its standard input ends: the supervisor is gone.
fn end_with_input() {
    thread::spawn(|| {
        _ = io::stdin().read_to_end(&mut Vec::new());
        process::exit(0);
    });
}
