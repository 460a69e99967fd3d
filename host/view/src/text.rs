//! The timeline as text: one line for each call, grouped by view, and below it whose timeout decided.

use std::io::{self, Write};

use oracle::{Name, Protocol};
use sim::words;

use crate::meaning::answer_words;
use crate::play::{Event, Opened, State};
use crate::recording::Call;

/// A call in words.
pub fn call_words(event: &Event, protocol: &Protocol) -> String {
    match event.call() {
        Call::Timer(view) => format!("timer of view {view}"),
        Call::Propose(name) => format!("propose {}", words::name(&name)),
        Call::Record(Some(kind)) if oracle::wire::shape(&event.record, protocol.settings.n()).is_err() => {
            format!("record of kind {kind}, {} bytes", event.record.len())
        }
        Call::Record(Some(_)) => words::describe(&event.record, protocol),
        Call::Record(None) => format!("{} bytes without a header", event.record.len()),
    }
}

/// What the call wrote, each record in words.
pub fn written_words(event: &Event, protocol: &Protocol) -> Vec<String> {
    event.written.iter().map(|record| words::describe(record, protocol)).collect()
}

/// `A of view 1`, or `genesis`.
pub fn lock_words((view, name): (u64, Name)) -> String {
    match view {
        0 => "genesis".to_string(),
        _ => format!("{} of view {view}", words::name(&name)),
    }
}

pub fn state_words(state: &State) -> String {
    let State { view, timed, lock, height } = state;
    format!("view {view}, timed {timed}, lock {}, height {height}", lock_words(*lock))
}

/// Writes a timeline event by event.
pub struct Timeline<'a, W: Write> {
    opened: &'a Opened,
    out: W,
    /// The view whose heading stands last; 0 before the first.
    view: u64,
}

impl<'a, W: Write> Timeline<'a, W> {
    pub fn begin(opened: &'a Opened, source: &str, mut out: W) -> io::Result<Self> {
        let settings = opened.protocol.settings;
        writeln!(out, "{}", opened.title.as_deref().unwrap_or("recorded run"))?;
        if let Some(about) = &opened.about {
            writeln!(out, "{about}")?;
        }
        let honest: Vec<u16> = opened.lanes.iter().filter(|lane| !lane.is_byzantine).map(|lane| lane.replica).collect();
        let replicas = if honest.len() == 1 { "replica" } else { "replicas" };
        let (n, f, c, k) = (settings.n(), settings.f(), settings.c(), settings.k());
        write!(out, "{source}: {replicas} {} of {n}, f {f}, c {c}, k {k}; ", words::join(honest.iter()))?;
        writeln!(out, "{} calls", opened.calls)?;
        for lane in opened.lanes.iter().filter(|lane| lane.is_byzantine) {
            writeln!(out, "replica {} is Byzantine", lane.replica)?;
        }
        Ok(Timeline { opened, out, view: 0 })
    }

    pub fn event(&mut self, event: &Event) -> io::Result<()> {
        if event.reached != self.view {
            self.view = event.reached;
            let leader = self.opened.leader(self.view);
            writeln!(self.out, "\nview {}, leader {leader}", self.view)?;
        }
        for step in self.opened.steps.iter().filter(|step| step.first + 1 == event.index) {
            writeln!(self.out, "  -- {}", step.caption)?;
        }
        self.line(event)?;
        event.choices.iter().try_for_each(|choice| writeln!(self.out, "          {choice}"))
    }

    fn line(&mut self, event: &Event) -> io::Result<()> {
        let protocol = &self.opened.protocol;
        let call = call_words(event, protocol);
        write!(self.out, "{:>6}  replica {} <- {call} -> ", event.index, event.replica)?;
        write!(self.out, "{}", answer_words(event.answer, event.kind()))?;
        let written = written_words(event, protocol);
        if !written.is_empty() {
            write!(self.out, ", writes {}", written.join("; "))?;
        }
        writeln!(self.out, "  [{}]", state_words(&event.after))
    }
}
