//! In random runs under attack: of every timeout certificate that a replica accepts or forms it is asked whose timeout
//! decided it (02, 2.3), on the oracle and on the proved library, and the answer is held against what it means.

use std::cell::Cell;

use oracle::wire::{self, kind, Timeouts};
use oracle::{Faults, Name, Protocol, Replica, Settings};
use sim::timeouts::{certificate_in, without};
use sim::{Core, Coverage, Family, Names, Plan, Proved, Style};

/// How often each sort of answer was given.
#[derive(Default)]
struct Answers {
    named: Cell<u64>,
    /// Some timeout could be left out, and no single one decides.
    nobody: Cell<u64>,
    just_enough: Cell<u64>,
}

fn count(answers: &Cell<u64>) {
    answers.set(answers.get() + 1);
}

/// A replica whose timeout certificates are asked about.
#[derive(Clone)]
struct Asked<'a> {
    replica: Replica,
    answers: &'a Answers,
}

impl Asked<'_> {
    /// Asks about those of an accepted call: handed in, inside a proposal, or written.
    fn ask(&self, answer: u16, record: Option<&[u8]>, output: &[u8]) {
        if answer == 0 {
            let records = record.into_iter().chain(wire::records(output));
            records.filter_map(certificate_in).for_each(|certificate| self.ask_about(certificate));
            for certificate in formed(record, output) {
                assert_eq!(self.spare(certificate), 0, "rule B forms it of the first timeouts that are enough");
            }
        }
    }

    /// How many timeouts it has beside those that it takes.
    fn spare(&self, certificate: &[u8]) -> usize {
        Timeouts::of(certificate).count() - self.replica.settings().timeout_quorum() as usize
    }

    fn ask_about(&self, certificate: &[u8]) {
        let settings = self.replica.settings();
        let spare = self.spare(certificate);
        match decisive(settings, certificate) {
            Some(sender) => {
                assert!(spare > 0, "the answer is none with exactly n−f−c timeouts");
                assert_decides(settings, certificate, sender);
                count(&self.answers.named);
            }
            None if spare > 0 => {
                assert_same_without(settings, certificate, Timeouts::of(certificate).senders());
                count(&self.answers.nobody);
            }
            None => count(&self.answers.just_enough),
        }
    }
}

/// The certificates that a call forms itself: those written but for the one that is handed in, which is sent on by another
/// sender.
fn formed<'a>(record: Option<&'a [u8]>, output: &'a [u8]) -> impl Iterator<Item = &'a [u8]> {
    let handed_in = record.and_then(certificate_in).map(|certificate| &certificate[wire::HEADER..]);
    let certificates = wire::records(output).filter(|written| wire::kind_of(written) == kind::TIMEOUT_CERTIFICATE);
    certificates.filter(move |written| Some(&written[wire::HEADER..]) != handed_in)
}

fn numbers(settings: Settings) -> [u64; 4] {
    [settings.f(), settings.c(), settings.k(), settings.n()].map(u64::from)
}

/// What both answer.
fn decisive(settings: Settings, certificate: &[u8]) -> Option<u16> {
    let [f, c, k, n] = numbers(settings);
    let library = replica::decisive_timeout(replica::Settings { f, c, k, n }, certificate);
    let other = oracle::decisive(f, c, k, n, certificate).expect("what a replica accepts is good");
    assert_eq!(library, Ok(other.map(u64::from)), "({f},{c},{k}): {certificate:?}");
    other
}

fn safe_block(settings: Settings, certificate: &[u8]) -> Name {
    Protocol::new(settings, Faults::NONE).safe_certificate(Timeouts::of(certificate)).name
}

/// Without this sender's timeout it is a good certificate with another safe block, and this is the lowest such sender.
fn assert_decides(settings: Settings, certificate: &[u8], sender: u16) {
    let senders = Timeouts::of(certificate).senders();
    assert_same_without(settings, certificate, senders.take_while(|lower| *lower < sender));
    let left = without(certificate, sender);
    assert_ne!(safe_block(settings, &left), safe_block(settings, certificate), "{sender}: {certificate:?}");
    assert_eq!(answer_of_a_fresh::<Replica>(Faults::NONE, settings, &left), 0, "{sender}: {certificate:?}");
    assert_eq!(answer_of_a_fresh::<Proved>((), settings, &left), 0, "{sender}: {certificate:?}");
}

fn assert_same_without(settings: Settings, certificate: &[u8], senders: impl Iterator<Item = u16>) {
    let safe = safe_block(settings, certificate);
    for sender in senders {
        assert_eq!(safe_block(settings, &without(certificate, sender)), safe, "{sender}: {certificate:?}");
    }
}

/// In view 1.
fn answer_of_a_fresh<C: Core>(options: C::Options, settings: Settings, record: &[u8]) -> u16 {
    let [f, c, k, n] = numbers(settings);
    C::open(options, f, c, k, n, 0, &[0]).expect("good settings").record(record, &mut Vec::new())
}

impl<'a> Core for Asked<'a> {
    type Options = &'a Answers;

    fn open(answers: &'a Answers, f: u64, c: u64, k: u64, n: u64, own: u64, leaders: &[u8]) -> Result<Self, u16> {
        let opened = <Replica as Core>::open(Faults::NONE, f, c, k, n, own, leaders);
        opened.map(|replica| Asked { replica, answers })
    }

    fn record(&mut self, bytes: &[u8], output: &mut Vec<u8>) -> u16 {
        let answer = Core::record(&mut self.replica, bytes, output);
        self.ask(answer, Some(bytes), output);
        answer
    }

    fn timer(&mut self, view: u64, output: &mut Vec<u8>) -> u16 {
        let answer = Core::timer(&mut self.replica, view, output);
        self.ask(answer, None, output);
        answer
    }

    fn propose(&mut self, name: Name, output: &mut Vec<u8>) -> u16 {
        let answer = Core::propose(&mut self.replica, name, output);
        self.ask(answer, None, output);
        answer
    }

    fn record_with(&mut self, bytes: &[u8], contents: &[u8], output: &mut Vec<u8>) -> u16 {
        let answer = Core::record_with(&mut self.replica, bytes, contents, output);
        self.ask(answer, Some(bytes), output);
        answer
    }

    fn propose_with(&mut self, name: Name, contents: &[u8], output: &mut Vec<u8>) -> u16 {
        let answer = Core::propose_with(&mut self.replica, name, contents, output);
        self.ask(answer, None, output);
        answer
    }

    fn propose_contents(&mut self, contents: &[u8], output: &mut Vec<u8>) -> u16 {
        let answer = Core::propose_contents(&mut self.replica, contents, output);
        self.ask(answer, None, output);
        answer
    }

    fn view(&self) -> u64 {
        self.replica.view()
    }

    fn timed(&self) -> u64 {
        self.replica.timed()
    }

    fn height(&self) -> u64 {
        self.replica.height()
    }
}

/// Runs in rounds: they come to certificates whose choice hangs on one timeout more often than a busy network does.
fn play(family: Family, answers: &Answers) {
    let plan: Plan<Asked> = Plan {
        options: answers,
        faults: Faults::NONE,
        settings: family.settings(),
        leaders: None,
        seed: 23,
        calls: 250_000,
        longest: None,
        style: Style::Rounds,
        names: Names::Both,
    };
    plan.play(&mut Coverage::default()).expect("one chain");
}

#[test]
fn every_timeout_certificate_is_asked_about() {
    let answers = Answers::default();
    Family::ALL.into_iter().for_each(|family| play(family, &answers));
    let [named, nobody, just_enough] = [answers.named, answers.nobody, answers.just_enough].map(Cell::into_inner);
    println!("{named} named, {nobody} nobody, {just_enough} just enough");
    assert!(named > 40 && nobody > 1_000 && just_enough > 10_000, "{named}, {nobody}, {just_enough}");
}
