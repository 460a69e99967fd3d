//! Shows recorded runs as text, as a picture, as a page.

use std::fs;
use std::io::{self, BufWriter, IsTerminal, Write};
use std::process::ExitCode;

use oracle::{help, Faults, Protocol, Replica};
use sim::Proved;
use view::{join, page, picture, play, Error, Event, Opened, Panel, Played, Recording, Summary, Timeline};

const USAGE: &str = "\
usage: view [--summary] [--progress] [--core CORE] [--beside FILE] [--fault NAME].. FILE..
       view [--html OUT] [--svg OUT] [--title TEXT] [--progress] [--core CORE] [--beside FILE] [--fault NAME].. FILE..
FILE is an input of the run program (one replica each; several may be given) or a run of a whole cluster.
  --html OUT     a page with the picture and every call in words
  --svg OUT      the picture alone
  --title TEXT   the heading of page and picture
  --beside FILE  a second run, shown below the first
  --core CORE    library (the proved one, as a rule) or oracle; a run with an error built in is played on the oracle
  --fault NAME   an error built into the replicas of the second run, or of the first if there is no second; may be given
                 several times, `run --help` has the names
  --summary      only counts, releases and last states
  --progress     tells on standard error how far it is; as a rule only a terminal is told
  --help         prints this";

#[derive(Default)]
struct Options {
    files: Vec<String>,
    beside: Option<String>,
    faults: Faults,
    /// Whether the oracle plays runs without faults too.
    oracle: bool,
    html: Option<String>,
    svg: Option<String>,
    title: Option<String>,
    summary: bool,
    progress: bool,
}

impl Options {
    fn read(mut arguments: impl Iterator<Item = String>) -> Result<Options, Error> {
        let mut options = Options::default();
        while let Some(argument) = arguments.next() {
            let mut value = || arguments.next().ok_or_else(|| Error(format!("{argument} needs a value")));
            match argument.as_str() {
                "--summary" => options.summary = true,
                "--progress" => options.progress = true,
                "--beside" => options.beside = Some(value()?),
                "--html" => options.html = Some(value()?),
                "--svg" => options.svg = Some(value()?),
                "--title" => options.title = Some(value()?),
                "--core" => options.set_core(&value()?)?,
                "--fault" => options.set_fault(&value()?)?,
                _ if argument.starts_with("--") => return Err(Error(format!("{argument}: no such option"))),
                _ => options.files.push(argument),
            }
        }
        if options.files.is_empty() {
            return Err(Error("no file is given".to_string()));
        }
        Ok(options)
    }

    fn set_fault(&mut self, name: &str) -> Result<(), Error> {
        match self.faults.set(name) {
            true => Ok(()),
            false => Err(Error(format!("{name}: no such fault; there are {}", Faults::NAMES.join(" ")))),
        }
    }

    fn set_core(&mut self, name: &str) -> Result<(), Error> {
        self.oracle = match name {
            "library" => false,
            "oracle" => true,
            _ => return Err(Error(format!("{name}: no such core; there are library oracle"))),
        };
        Ok(())
    }

    fn draws(&self) -> bool {
        self.html.is_some() || self.svg.is_some()
    }

    /// Plays a run on the library, or on the oracle where that is asked for or needed.
    fn play<E>(
        &self,
        recording: &Recording,
        faults: Faults,
        each: impl FnMut(Event) -> Result<(), E>,
    ) -> Result<(), E> {
        if self.oracle || faults != Faults::NONE {
            play::<Replica, E>(recording, faults, each)
        } else {
            play::<Proved, E>(recording, (), each)
        }
    }

    /// The errors of the run itself.
    fn first_faults(&self) -> Faults {
        if self.beside.is_some() {
            Faults::NONE
        } else {
            self.faults
        }
    }
}

fn main() -> ExitCode {
    help::answer(USAGE);
    let options = match Options::read(std::env::args().skip(1)) {
        Ok(options) => options,
        Err(error) => {
            eprintln!("view: {error}\n{USAGE}");
            return ExitCode::from(2);
        }
    };
    let shown = if options.draws() { draw(&options) } else { tell(&options) };
    match shown {
        Ok(()) => ExitCode::SUCCESS,
        Err(error) => {
            eprintln!("view: {error}");
            ExitCode::FAILURE
        }
    }
}

fn about(file: &str) -> impl Fn(io::Error) -> Error + '_ {
    move |error| Error(format!("{file}: {error}"))
}

fn read(file: &str) -> Result<Recording, Error> {
    let bytes = fs::read(file).map_err(about(file))?;
    Recording::read(&bytes).map_err(|error| Error(format!("{file}: {error}")))
}

// ---------------------------------------------------------------- progress

/// Tells on standard error how far a run is.
struct Progress {
    told: bool,
    calls: usize,
    done: usize,
}

const EVERY: usize = 20_000;

impl Progress {
    fn new(options: &Options, calls: usize) -> Progress {
        Progress { told: options.progress || io::stderr().is_terminal(), calls, done: 0 }
    }

    fn call(&mut self) {
        self.done += 1;
        if self.told && self.calls > EVERY && self.done.is_multiple_of(EVERY) {
            eprintln!("view: {} of {} calls", self.done, self.calls);
        }
    }
}

// ---------------------------------------------------------------- text

fn tell(options: &Options) -> Result<(), Error> {
    let mut out = BufWriter::new(io::stdout().lock());
    for file in &options.files {
        tell_file(options, file, options.first_faults(), &mut out)?;
    }
    if let Some(file) = &options.beside {
        tell_file(options, file, options.faults, &mut out)?;
    }
    written(out.flush())
}

/// Whoever reads may stop reading: that is no failure.
fn written<T>(result: io::Result<T>) -> Result<T, Error> {
    match result {
        Err(error) if error.kind() == io::ErrorKind::BrokenPipe => std::process::exit(0),
        result => result.map_err(|error| Error(error.to_string())),
    }
}

fn tell_file(options: &Options, file: &str, faults: Faults, out: &mut impl Write) -> Result<(), Error> {
    let recording = read(file)?;
    let opened = Opened::new(&recording, Protocol::new(recording.settings, faults));
    let mut progress = Progress::new(options, recording.entries.len());
    let mut summary = Summary::new(&opened);
    let mut timeline = match options.summary {
        true => None,
        false => Some(written(Timeline::begin(&opened, file, &mut *out))?),
    };
    options.play(&recording, faults, |event: Event| {
        progress.call();
        summary.event(&event);
        timeline.as_mut().map_or(Ok(()), |timeline| written(timeline.event(&event)))
    })?;
    let end = if options.summary { format!("{file}: {summary}\n") } else { format!("\n{summary}\n") };
    written(out.write_all(end.as_bytes()))
}

// ---------------------------------------------------------------- pictures

fn draw(options: &Options) -> Result<(), Error> {
    let runs: Result<Vec<Played>, Error> =
        options.files.iter().map(|file| play_file(options, file, options.first_faults())).collect();
    let first = join(runs?)?;
    let second = options.beside.as_deref().map(|file| play_file(options, file, options.faults)).transpose()?;
    let mut panels = vec![Panel { heading: heading(&first, &options.files.join(", ")), played: &first }];
    if let (Some(played), Some(file)) = (&second, &options.beside) {
        panels.push(Panel { heading: heading(played, file), played });
    }
    let title = options.title.as_deref().unwrap_or("Recorded run");
    if let Some(file) = &options.svg {
        fs::write(file, picture(title, &panels)).map_err(about(file))?;
    }
    if let Some(file) = &options.html {
        fs::write(file, page(title, &panels)).map_err(about(file))?;
    }
    Ok(())
}

fn play_file(options: &Options, file: &str, faults: Faults) -> Result<Played, Error> {
    let recording = read(file)?;
    let opened = Opened::new(&recording, Protocol::new(recording.settings, faults));
    let mut progress = Progress::new(options, recording.entries.len());
    let mut events = Vec::new();
    options.play::<Error>(&recording, faults, |event| {
        progress.call();
        events.push(event);
        Ok(())
    })?;
    Ok(Played { opened, events })
}

fn heading(played: &Played, source: &str) -> String {
    played.opened.title.clone().unwrap_or_else(|| source.to_string())
}
