//! Plays random runs of simulated clusters and prints what they reached, or one scripted run in words.

use std::process::ExitCode;
use std::time::Instant;

use oracle::{help, Faults, Leaders, Protocol, Replica, Settings};
use sim::{scenarios, settings, Core, Coverage, Family, Names, Plan, Proved, Script, Style};

const USAGE: &str = "\
usage: sim [--calls N] [--seed S] [--settings f,c,k].. [--leaders LIST] [--longest N] [--style STYLE] [--names NAMES]
           [--core CORE] [--fault NAME]..
       sim --scenario NAME
  --calls N         random calls in all, 1,000,000 if not given
  --seed S          what is drawn follows from it, 1 if not given
  --settings f,c,k  these settings; may be given several times. If not given, each run draws one of all that opening
                    takes, family by family
  --leaders LIST    the leader list of all runs, such as 0,1,0,2, in clusters that it fits; each run draws its own if
                    not given
  --longest N       the most calls of one run, 400 for each replica if not given
  --style STYLE     how runs are drawn: network, rounds, both (by turns, if not given), or old-states
  --names NAMES     how blocks get their names: invented, contents (each comes with its own), or both (each run draws
                    one, if not given)
  --core CORE       the replicas: oracle (if not given) or library, the proved one
  --fault NAME      an error built into the honest replicas, of the oracle only; may be given several times
  --scenario NAME   the scripted run for a fault in the cluster of six, or `resume`, call by call in words: with the error
                    and without it; `ten-NAME` for p-from-c-k-2 and the quorums in the cluster of ten
  --help            prints this
`run --help` has the names of the faults.";

struct Options {
    calls: u64,
    seed: u64,
    longest: Option<u64>,
    /// Empty for all that opening takes.
    settings: Vec<Settings>,
    /// The leader list of all runs; they draw their own if it is empty.
    leaders: Vec<u8>,
    faults: Faults,
    style: Style,
    names: Names,
    scenario: Option<String>,
    /// Over the proved library in place of the oracle; it has no faults.
    library: bool,
}

/// Settings whose runs get a line of their own.
struct Group {
    words: String,
    settings: Vec<Settings>,
}

impl Options {
    /// The settings given, each by itself, or all that fit, family by family.
    fn groups(&self) -> Vec<Group> {
        let words = |it: Settings| format!("({},{},{}) n {}", it.f(), it.c(), it.k(), it.n());
        let given = self.settings.iter().map(|settings| Group { words: words(*settings), settings: vec![*settings] });
        if self.settings.is_empty() {
            Family::ALL.iter().map(|family| self.group_of(*family)).filter(|group| !group.settings.is_empty()).collect()
        } else {
            given.collect()
        }
    }

    fn group_of(&self, family: Family) -> Group {
        let mut settings = family.settings();
        settings.retain(|settings| self.fit(*settings));
        Group { words: family.words().to_string(), settings }
    }

    /// Whether a cluster takes the leader list, if one is given.
    fn fit(&self, settings: Settings) -> bool {
        self.leaders.is_empty() || Leaders::new(&self.leaders, settings).is_some()
    }
}

fn read_settings(text: &str) -> Option<Settings> {
    let numbers: Vec<u64> = text.split(',').map(|number| number.parse().ok()).collect::<Option<_>>()?;
    match numbers[..] {
        [f, c, k] => Settings::new(f, c, k),
        _ => None,
    }
}

fn style(text: &str) -> Option<Style> {
    match text {
        "both" => Some(Style::Both),
        "network" => Some(Style::Network),
        "rounds" => Some(Style::Rounds),
        "old-states" => Some(Style::OldStates),
        _ => None,
    }
}

fn names(text: &str) -> Option<Names> {
    match text {
        "both" => Some(Names::Both),
        "invented" => Some(Names::Invented),
        "contents" => Some(Names::ByContents),
        _ => None,
    }
}

fn options(mut arguments: impl Iterator<Item = String>) -> Option<Options> {
    let mut options = Options {
        calls: 1_000_000,
        seed: 1,
        longest: None,
        settings: Vec::new(),
        leaders: Vec::new(),
        faults: Faults::NONE,
        style: Style::Both,
        names: Names::Both,
        scenario: None,
        library: false,
    };
    while let Some(option) = arguments.next() {
        let value = arguments.next()?;
        match option.as_str() {
            "--calls" => options.calls = value.parse().ok()?,
            "--seed" => options.seed = value.parse().ok()?,
            "--longest" => options.longest = Some(value.parse().ok()?),
            "--settings" => options.settings.push(read_settings(&value)?),
            "--leaders" => {
                options.leaders = value.split(',').map(|number| number.parse().ok()).collect::<Option<_>>()?
            }
            "--style" => options.style = style(&value)?,
            "--names" => options.names = names(&value)?,
            "--fault" if options.faults.set(&value) => {}
            "--scenario" => options.scenario = Some(value),
            "--core" if value == "library" || value == "oracle" => options.library = value == "library",
            _ => return None,
        }
    }
    if options.library && options.faults != Faults::NONE {
        return None;
    }
    let fits = options.settings.iter().all(|settings| options.fit(*settings));
    (fits && !options.groups().is_empty()).then_some(options)
}

fn main() -> ExitCode {
    help::answer(USAGE);
    let Some(options) = options(std::env::args().skip(1)) else {
        eprintln!("{USAGE}");
        return ExitCode::FAILURE;
    };
    let good = match &options.scenario {
        Some(name) => tell(name),
        None if options.library => explore::<Proved>(&options, ()),
        None => explore::<Replica>(&options, options.faults),
    };
    if good {
        ExitCode::SUCCESS
    } else {
        ExitCode::FAILURE
    }
}

/// Random runs; false if one broke the claim.
fn explore<C: Core>(options: &Options, opening: C::Options) -> bool {
    let mut coverage = Coverage::default();
    let mut good = true;
    let groups = options.groups();
    for group in &groups {
        let plan: Plan<C> = Plan {
            options: opening,
            faults: options.faults,
            settings: group.settings.clone(),
            leaders: Leaders::new(&options.leaders, group.settings[0]),
            seed: options.seed,
            calls: options.calls / groups.len() as u64,
            longest: options.longest,
            style: options.style,
            names: options.names,
        };
        let start = Instant::now();
        print!("{}: ", group.words);
        match plan.play(&mut coverage) {
            Ok(calls) => println!("{calls} calls, one chain, {:.1} s", start.elapsed().as_secs_f64()),
            Err(failure) => {
                println!("{failure:?}");
                good = false;
            }
        }
    }
    println!("\n{coverage}");
    println!("never reached: {}", coverage.empty_rows().join(", "));
    good
}

/// A scripted run in words; false if there is none of that name.
fn tell(name: &str) -> bool {
    if name == "resume" {
        let protocol = Protocol::new(settings::six(), Faults::NONE);
        for (title, old_state) in [("from an old state", true), ("from the last finished call", false)] {
            let mut script: Script<Replica> = Script::open(Faults::NONE, protocol, &[0]);
            scenarios::resume(&mut script, old_state);
            print_script(&format!("resume {title}"), &script);
        }
        return true;
    }
    let Some(scenario) = scenarios::all::<Replica>().into_iter().find(|scenario| scenario.name == name) else {
        eprintln!("no scenario {name}");
        return false;
    };
    let mut faults = Faults::NONE;
    faults.set(scenario.fault);
    print_script(&format!("with {name}"), &scenarios::play(&scenario, faults, faults));
    print_script(&format!("without {name}"), &scenarios::play(&scenario, Faults::NONE, Faults::NONE));
    true
}

fn print_script(title: &str, script: &Script<Replica>) {
    println!("== {title}");
    script.trace().iter().for_each(|line| println!("{line}"));
    for replica in (0..script.cluster.n()).filter(|&replica| !script.row(replica).is_empty()) {
        println!("replica {replica} has released {}", script.row(replica));
    }
    println!("{}\n", if script.cluster.rows().is_one_chain() { "one chain" } else { "TWO CHAINS" });
}
