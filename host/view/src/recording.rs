//! Recorded runs as files: inputs of the run program, one replica each, and runs of a whole cluster.
//!
//! A run of a cluster is a text file. Its first line is `cluster run, format 1`. Every other line is one of
//!
//! - `title TEXT`, at most once: what the run shows
//! - `about TEXT`, at most once: what a reader has to know first
//! - `byzantine NUMBER`: a replica that lies; it has no calls
//! - `step TEXT`: a caption; the calls after it belong to this step of the story
//! - `NUMBER HEX`: a record as the run program reads it, handed to this replica. The first one of a replica is its
//!   opening (kind 12) with its own number. Lines stand in the order in which the calls were made.
//! - an empty line, which says nothing

use std::fmt;

use oracle::wire::{self, kind};
use oracle::{Leaders, Name, Settings};

pub const MAGIC: &str = "cluster run, format 1";

/// One call: a record as the run program reads it.
#[derive(Clone, Debug, PartialEq, Eq)]
pub struct Entry {
    pub replica: u16,
    pub record: Vec<u8>,
}

/// A caption over the calls from `first` (counted from 0) on.
#[derive(Clone, Debug, PartialEq, Eq)]
pub struct Step {
    pub first: usize,
    pub caption: String,
}

/// The calls of a run, openings left out.
#[derive(Clone, Debug, PartialEq, Eq)]
pub struct Recording {
    pub title: Option<String>,
    pub about: Option<String>,
    pub settings: Settings,
    /// Replicas that were opened, in the order of their openings.
    pub opened: Vec<u16>,
    pub byzantine: Vec<u16>,
    pub steps: Vec<Step>,
    pub entries: Vec<Entry>,
    /// Bytes at the end of an input that are no whole record: cut short, or a length under 8 or over 3,696.
    pub left_over: usize,
    /// Whether the order of calls is that of the whole cluster.
    pub is_cluster: bool,
}

/// Why a file can't be read, in words.
#[derive(Clone, Debug, PartialEq, Eq)]
pub struct Error(pub String);

impl fmt::Display for Error {
    fn fmt(&self, formatter: &mut fmt::Formatter<'_>) -> fmt::Result {
        formatter.write_str(&self.0)
    }
}

fn fail<T>(words: impl Into<String>) -> Result<T, Error> {
    Err(Error(words.into()))
}

impl Recording {
    /// Reads either sort of file.
    pub fn read(bytes: &[u8]) -> Result<Recording, Error> {
        if bytes.starts_with(MAGIC.as_bytes()) {
            match std::str::from_utf8(bytes) {
                Ok(text) => Self::read_cluster(text),
                Err(_) => fail("a cluster run that isn't text"),
            }
        } else {
            Self::read_input(bytes)
        }
    }

    /// An empty recording of a cluster.
    pub fn cluster(settings: Settings) -> Recording {
        Recording {
            title: None,
            about: None,
            settings,
            opened: Vec::new(),
            byzantine: Vec::new(),
            steps: Vec::new(),
            entries: Vec::new(),
            left_over: 0,
            is_cluster: true,
        }
    }

    fn read_input(bytes: &[u8]) -> Result<Recording, Error> {
        let Some((first, mut rest)) = oracle::run::cut(bytes) else {
            return fail("neither an input of the run program (kind 12 first) nor a cluster run");
        };
        let (settings, own) = read_opening(first)?;
        let mut recording = Recording { opened: vec![own], is_cluster: false, ..Self::cluster(settings) };
        while let Some((record, left)) = oracle::run::cut(rest) {
            recording.entries.push(Entry { replica: own, record: record.to_vec() });
            rest = left;
        }
        recording.left_over = rest.len();
        if !rest.is_empty() {
            recording.entries.push(Entry { replica: own, record: rest.to_vec() });
        }
        Ok(recording)
    }

    fn read_cluster(text: &str) -> Result<Recording, Error> {
        let mut reader = Reader::default();
        for (number, line) in text.lines().enumerate().skip(1) {
            reader.read_line(line.trim_end()).map_err(|error| Error(format!("line {}: {error}", number + 1)))?;
        }
        reader.finish()
    }

    /// The opening's five numbers.
    pub fn opening(&self, own: u16) -> [u16; 5] {
        let settings = self.settings;
        let [f, c, k, n] = [settings.f(), settings.c(), settings.k(), settings.n()].map(|number| number as u16);
        [f, c, k, n, own]
    }

    /// The leader list, which the run program opens with.
    pub fn leaders(&self) -> Leaders {
        Leaders::in_turn(self.settings)
    }

    /// The input of the run program for one replica of this run.
    pub fn input(&self, own: u16) -> Vec<u8> {
        let mut input = Vec::new();
        wire::write_opening(&mut input, self.opening(own));
        for entry in self.entries.iter().filter(|entry| entry.replica == own) {
            input.extend_from_slice(&entry.record);
        }
        input
    }

    /// The text of a cluster run, which reads back to the same.
    pub fn write(&self) -> String {
        let mut text = format!("{MAGIC}\n");
        for (word, line) in [("title", &self.title), ("about", &self.about)] {
            if let Some(line) = line {
                text.push_str(&format!("{word} {line}\n"));
            }
        }
        for replica in &self.byzantine {
            text.push_str(&format!("byzantine {replica}\n"));
        }
        for &replica in &self.opened {
            let mut record = Vec::new();
            wire::write_opening(&mut record, self.opening(replica));
            text.push_str(&format!("{replica} {}\n", hex(&record)));
        }
        for (at, entry) in self.entries.iter().enumerate() {
            for step in self.steps.iter().filter(|step| step.first == at) {
                text.push_str(&format!("\nstep {}\n", step.caption));
            }
            text.push_str(&format!("{} {}\n", entry.replica, hex(&entry.record)));
        }
        text
    }
}

/// A cluster run as far as it is read.
#[derive(Default)]
struct Reader {
    title: Option<String>,
    about: Option<String>,
    /// Those of the first opening.
    settings: Option<Settings>,
    opened: Vec<u16>,
    byzantine: Vec<u16>,
    steps: Vec<Step>,
    entries: Vec<Entry>,
}

impl Reader {
    fn read_line(&mut self, line: &str) -> Result<(), Error> {
        match line.split_once(' ') {
            None if line.is_empty() => {}
            Some(("title", title)) => set_once(&mut self.title, title)?,
            Some(("about", about)) => set_once(&mut self.about, about)?,
            Some(("byzantine", replica)) => self.byzantine.push(read_number(replica)?),
            Some(("step", caption)) => {
                self.steps.push(Step { first: self.entries.len(), caption: caption.to_string() });
            }
            Some((replica, hex)) => self.read_call(read_number(replica)?, read_hex(hex)?)?,
            None => {
                return fail("neither `title`, `about`, `byzantine`, `step` nor a replica's number and a record in hex")
            }
        }
        Ok(())
    }

    fn read_call(&mut self, replica: u16, record: Vec<u8>) -> Result<(), Error> {
        if self.opened.contains(&replica) {
            self.entries.push(Entry { replica, record });
            return Ok(());
        }
        let (settings, own) = read_opening(&record)?;
        if *self.settings.get_or_insert(settings) != settings {
            return fail(format!("replica {replica} is opened with other settings than the one before"));
        }
        if own != replica {
            return fail(format!("replica {replica} is opened with own number {own}"));
        }
        self.opened.push(own);
        Ok(())
    }

    fn finish(self) -> Result<Recording, Error> {
        let Some(settings) = self.settings else {
            return fail("a cluster run without an opening");
        };
        let n = settings.n() as u16;
        if let Some(replica) = self.byzantine.iter().find(|replica| **replica >= n || self.opened.contains(replica)) {
            return fail(format!("replica {replica} can't be Byzantine: it isn't in the cluster, or it has calls"));
        }
        let Reader { title, about, opened, byzantine, steps, entries, .. } = self;
        Ok(Recording { title, about, opened, byzantine, steps, entries, ..Recording::cluster(settings) })
    }
}

/// The settings and own number of a kind 12 that every implementation must take.
fn read_opening(record: &[u8]) -> Result<(Settings, u16), Error> {
    let Some([f, c, k, n, own]) = oracle::run::opening(record) else {
        return fail("the first record of a replica isn't a well-formed opening (kind 12, 24 bytes, sender 0)");
    };
    match Settings::new(f.into(), c.into(), k.into()) {
        Some(settings) if settings.n() == u32::from(n) && own < n => Ok((settings, own)),
        _ => fail(format!("the opening is refused (1): f {f}, c {c}, k {k}, n {n}, own number {own} break a rule")),
    }
}

fn set_once(line: &mut Option<String>, text: &str) -> Result<(), Error> {
    match line.replace(text.to_string()) {
        Some(_) => fail("a title or what it is about is given twice"),
        None => Ok(()),
    }
}

fn read_number(text: &str) -> Result<u16, Error> {
    text.parse().or_else(|_| fail(format!("`{text}` isn't a replica's number")))
}

fn read_hex(text: &str) -> Result<Vec<u8>, Error> {
    let digit = |byte: u8| (byte as char).to_digit(16).map(|digit| digit as u8);
    let pair = |pair: &[u8]| match pair {
        [high, low] => Some(digit(*high)? << 4 | digit(*low)?),
        _ => None,
    };
    let bytes: Option<Vec<u8>> = text.as_bytes().chunks(2).map(pair).collect();
    bytes.map_or_else(|| fail("a record that isn't an even number of hex digits"), Ok)
}

fn hex(bytes: &[u8]) -> String {
    bytes.iter().map(|byte| format!("{byte:02x}")).collect()
}

/// A record by what it is in the run program; fields of the program's own kinds only where the record has its length.
#[derive(Clone, Copy, Debug, PartialEq, Eq)]
pub enum Call {
    Timer(u64),
    Propose(Name),
    /// Of this kind; none if there is no whole header.
    Record(Option<u16>),
}

impl Call {
    pub fn of(record: &[u8]) -> Call {
        if record.len() < wire::HEADER {
            return Call::Record(None);
        }
        match wire::kind_of(record) {
            kind::TIMER if record.len() == wire::TIMER => Call::Timer(wire::u64_at(record, 8)),
            kind::PROPOSE if record.len() == wire::PROPOSE => Call::Propose(wire::name_at(record, 8)),
            other => Call::Record(Some(other)),
        }
    }
}
