//! Plays calls on the library for a profiler, random streams or a cluster at work. Calls of the kind and answer asked
//! for go through the function `profiled`, all others through `others`. Or asks whose timeout decided a timeout
//! certificate, all in `profiled_question`, or for the names of blocks, in `profiled_name`, or brings blocks with their
//! contents or without, in `profiled_contents`:
//!
//!     valgrind --tool=callgrind --toggle-collect='*profiled*' target/release/profile work 13 Vote accepted

use std::hint::black_box;
use std::process::ExitCode;

use bench::contents::{self, Chain, Way};
use bench::decisive::{Case, Question};
use bench::names;
use bench::sides::{Library, Oracle, Side};
use bench::size;
use oracle::help;
use replica::raw;
use streams::{play, Call, Coverage, Kind, Opening};

const USAGE: &str = "\
usage: profile streams|work N KIND accepted|refused [RUNS]
       profile decisive N CASE [RUNS]
       profile names LENGTH [RUNS]
       profile contents LENGTH BRINGS With|Plain [RUNS]
plays calls on the library: in the function `profiled` those of that kind and answer, in `others` all others
  streams, work      random streams, or a cluster at work
  decisive           the call on a timeout certificate, in `profiled_question`
  names              the name of a block, in `profiled_name`
  contents           calls that bring a block, with its contents or without, in `profiled_contents`
  N                  the cluster's size: 6, 9, 13, 18, 24 or 32
  KIND               Vote, Commit, BlockCertificate, Timeout, TimeoutCertificate, Proposal, Block, Timer, Propose, or
                     Foreign: a record of no kind that a replica takes
  accepted, refused  the answer
  CASE               Enough, Alike, Different or ByTurns: the timeouts, as `bench --section decisive` has them
  LENGTH             bytes of the block's contents, 4,096 at most
  BRINGS             Block, Proposal or Propose
  RUNS               how many runs, 2 if not given
  --help             prints this";

struct Asked {
    make: fn(Settings, u64) -> Calls,
    settings: Settings,
    kind: Kind,
    accepted: bool,
    runs: u64,
}

impl Asked {
    /// None where the arguments can't be read.
    fn read(arguments: &[String]) -> Option<Asked> {
        let [calls, n, kind, answer, rest @ ..] = arguments else { return None };
        let n: u64 = n.parse().ok()?;
        Some(Asked {
            make: match calls.as_str() {
                "streams" => stream,
                "work" => work,
                _ => return None,
            },
            settings: size::SETTINGS.into_iter().find(|(f, c, k)| 3 * f + 2 * c + k + 1 == n)?,
            kind: Kind::ALL.into_iter().find(|known| format!("{known:?}") == *kind)?,
            accepted: answer == "accepted",
            runs: read_runs(rest)?,
        })
    }

    /// How many calls were of that kind and answer.
    fn run(&self) -> usize {
        (0..self.runs).map(|seed| run((self.make)(self.settings, seed), self.kind, self.accepted)).sum()
    }
}

fn read_runs(rest: &[String]) -> Option<u64> {
    rest.first().map_or(Some(2), |text| text.parse().ok())
}

fn main() -> ExitCode {
    help::answer(USAGE);
    let arguments: Vec<String> = std::env::args().skip(1).collect();
    let found = match arguments.first().map(String::as_str) {
        Some("decisive") => run_decisive(&arguments[1..]),
        Some("names") => run_names(&arguments[1..]),
        Some("contents") => run_contents(&arguments[1..]),
        _ => Asked::read(&arguments).map(|asked| asked.run()),
    };
    let Some(found) = found else {
        eprintln!("{USAGE}");
        return ExitCode::FAILURE;
    };
    println!("{found} calls");
    ExitCode::SUCCESS
}

type Settings = (u64, u64, u64);
type Calls = (Opening, Vec<Call>);

/// Makes the calls on timeout certificates and counts them; none where the arguments can't be read.
fn run_decisive(arguments: &[String]) -> Option<usize> {
    let [n, case, rest @ ..] = arguments else { return None };
    let case = Case::ALL.into_iter().find(|known| format!("{known:?}") == *case)?;
    let settings = case.cluster(n.parse().ok()?)?;
    let questions = (0..read_runs(rest)?).map(|seed| case.question(settings, seed));
    Some(questions.filter(|question| black_box(profiled_question(question))).count())
}

/// The same for the names of blocks.
fn run_names(arguments: &[String]) -> Option<usize> {
    let [length, rest @ ..] = arguments else { return None };
    let length = read_length(length)?;
    let questions = (0..read_runs(rest)?).map(|seed| names::Question::any(length, seed));
    Some(questions.filter(|question| black_box(profiled_name(question))).count())
}

/// The same for calls that bring a block.
fn run_contents(arguments: &[String]) -> Option<usize> {
    let [length, kind, way, rest @ ..] = arguments else { return None };
    let length = read_length(length)?;
    let kind = contents::Kind::ALL.into_iter().find(|known| format!("{known:?}") == *kind)?;
    let way = Way::ALL.into_iter().find(|known| format!("{known:?}") == *way)?;
    let mut found = 0;
    for seed in 0..read_runs(rest)? {
        Chain::new(kind, length, seed).play(|library, call| {
            found += usize::from(call.is_timed);
            match call.is_timed {
                true => black_box(profiled_contents(library, call, way)),
                false => call.make(library, way),
            }
        });
    }
    Some(found)
}

fn read_length(text: &str) -> Option<usize> {
    text.parse().ok().filter(|length| *length <= raw::CONTENTS)
}

fn stream((f, c, k): Settings, seed: u64) -> Calls {
    let opening = Opening::new(f, c, k, seed % (3 * f + 2 * c + k + 1)).expect("good settings");
    (opening, play(opening, seed, 1500, &mut Coverage::default()).calls)
}

fn work(settings: Settings, seed: u64) -> Calls {
    let script = size::script(settings, seed);
    (script.opening, script.calls.into_iter().map(|(call, _)| call).collect())
}

/// How many calls were of that kind and answer.
fn run((opening, calls): Calls, kind: Kind, accepted: bool) -> usize {
    let (mut library, mut oracle) = (Library::new(opening), Oracle::new(opening));
    let mut found = 0;
    for call in &calls {
        if oracle.make(call) == accepted && Kind::of(call) == kind {
            found += 1;
            black_box(profiled(&mut library, call));
        } else {
            black_box(others(&mut library, call));
        }
    }
    found
}

// The two differ, so that the compiler doesn't make one function of them.
#[inline(never)]
fn profiled(library: &mut Library, call: &Call) -> bool {
    library.make(black_box(call))
}

#[inline(never)]
fn profiled_question(question: &Question) -> bool {
    question.ask_library()
}

#[inline(never)]
fn profiled_name(question: &names::Question) -> bool {
    question.ask_library()
}

#[inline(never)]
fn profiled_contents(library: &mut Library, call: &contents::Call, way: Way) -> bool {
    call.make(library, black_box(way))
}

#[inline(never)]
fn others(library: &mut Library, call: &Call) -> bool {
    library.make(call)
}
