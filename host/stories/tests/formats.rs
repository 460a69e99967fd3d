//! The proved run program against the oracle's, byte for byte: on inputs that are cut or damaged, wherever their records
//! fall against the program's buffer, and however their bytes arrive.

mod common;

use std::collections::BTreeSet;
use std::io::Write;
use std::time::Duration;

use common::{answers, RUN};
use oracle::run::{cut, Options};
use oracle::wire::{self, kind, HEADER, LONGEST, PROPOSE, TIMER};
use oracle::{Block, Certificate, Height, Name, Timeout, View, Vote, GENESIS};
use sim::Random;

/// `INPUT_LENGTH` of `crates/run/src/main.rt`: the bytes after the opening that the program has at hand.
const BUFFER: usize = 8192;

const REFUSED: &str = "call answer view timed height\n0 1 0 0 0\n";

const A: Name = [b'A'; 32];

fn expected(input: &[u8]) -> String {
    let mut lines = Vec::new();
    oracle::run::run(input, Options::default(), &mut lines).expect("a vector takes all lines");
    String::from_utf8(lines).expect("lines are text")
}

/// Only the first difference is shown: a listing may have thousands of lines.
fn assert_same(printed: &str, expected: &str, about: &str) {
    if printed != expected {
        let lines = |text: &str| text.split_inclusive('\n').map(str::to_string).collect::<Vec<_>>();
        let (printed, expected) = (lines(printed), lines(expected));
        let at = (0..).find(|at| printed.get(*at) != expected.get(*at)).expect("a difference");
        panic!("{about}: line {at} is {:?}, the oracle has {:?}", printed.get(at), expected.get(at));
    }
}

/// Both programs on an input. What they print is given back.
fn compare(input: &[u8], about: &str) -> String {
    let expected = expected(input);
    assert_same(&RUN.printed(input), &expected, about);
    expected
}

/// The same with a file, so that each read fills the program's buffer.
fn compare_from_file(input: &[u8], about: &str) -> String {
    let expected = expected(input);
    assert_same(&RUN.printed_from_file(input), &expected, about);
    expected
}

fn bytes(write: impl FnOnce(&mut Vec<u8>)) -> Vec<u8> {
    let mut bytes = Vec::new();
    write(&mut bytes);
    bytes
}

/// Replica 0, which leads view 1: of six, and of 32.
fn opening() -> Vec<u8> {
    bytes(|out| wire::write_opening(out, [1, 1, 0, 6, 0]))
}

fn opening_of_32() -> Vec<u8> {
    bytes(|out| wire::write_opening(out, [7, 5, 0, 32, 0]))
}

fn timer() -> Vec<u8> {
    bytes(|out| wire::write_timer(out, View(1)))
}

fn propose() -> Vec<u8> {
    bytes(|out| wire::write_propose(out, A))
}

fn vote() -> Vec<u8> {
    bytes(|out| wire::write_vote(out, 2, Vote { view: View(1), name: A }))
}

/// A record of any length and kind: a 1 behind its header, and zeros.
fn record(length: usize, kind: u16, sender: u16) -> Vec<u8> {
    let mut record = vec![0; length];
    record[..4].copy_from_slice(&(length as u32).to_le_bytes());
    record[4..6].copy_from_slice(&kind.to_le_bytes());
    record[6..8].copy_from_slice(&sender.to_le_bytes());
    if let Some(byte) = record.get_mut(HEADER) {
        *byte = 1;
    }
    record
}

/// The longest record that is accepted: the next leader of 32 proposes by the timeouts of all.
fn longest() -> Vec<u8> {
    let timeout = |sender| Timeout { sender, view: View(1), high_vote: Vote::NONE, certificate: Certificate::GENESIS };
    let timeouts: Vec<Timeout> = (0..32).map(timeout).collect();
    let progress = bytes(|out| wire::write_timeout_certificate(out, 1, View(1), &timeouts));
    let block = Block { name: [b'B'; 32], parent: GENESIS, height: Height(1) };
    bytes(|out| wire::write_proposal(out, 1, View(2), &block, &progress))
}

/// The input's opening and records, without what is left at its end and isn't one.
fn records(mut input: &[u8]) -> Vec<&[u8]> {
    let mut records = Vec::new();
    while let Some((record, left)) = cut(input) {
        records.push(record);
        input = left;
    }
    records
}

/// The tests below put records at every place against it.
#[test]
fn the_buffer_is_as_long_as_the_programs() {
    let main = std::fs::read_to_string(concat!(env!("CARGO_MANIFEST_DIR"), "/../../crates/run/src/main.rt"))
        .expect("a source");
    assert!(main.contains(&format!("const INPUT_LENGTH: usize = {BUFFER};")));
}

// ---------------------------------------------------------------- what the records are

/// A short run cut at every byte, and the others in every record: in its header, behind it, and before its last byte.
#[test]
fn inputs_that_are_cut() {
    for run in stories::runs() {
        let mut cuts: BTreeSet<usize> = BTreeSet::new();
        if run.name == "listing" {
            cuts.extend(0..=run.input.len());
        }
        let mut at = 0;
        // No more: after these `refusals` fills the store with blocks.
        for record in records(&run.input).into_iter().take(100) {
            cuts.extend([at + 7, at + 8, at + record.len() - 1]);
            at += record.len();
        }
        for cut in cuts {
            compare(&run.input[..cut], &format!("{} cut at {cut}", run.name));
        }
    }
}

/// Each field of a header, in a record of each kind and length that the stored runs have, within its run: what comes after
/// is answered, or isn't.
#[test]
fn damaged_headers() {
    let mut seen = BTreeSet::new();
    let mut given = BTreeSet::new();
    for run in stories::runs().iter().filter(|run| !run.name.starts_with("bad-settings")) {
        let mut at = wire::OPENING;
        for record in records(&run.input).into_iter().skip(1) {
            let n = record.len() as u32;
            if seen.insert((wire::kind_of(record), n)) {
                let lengths = [0, 7, 8, 9, n - 1, n + 1, LONGEST as u32, LONGEST as u32 + 1, u32::MAX];
                let kinds = [0, 4, 9, 10, 11, 12, 13, u16::MAX, wire::kind_of(record) | 0x100];
                let senders = [0, 1, 6, u16::MAX];
                let damages = lengths.map(|field| (0, field.to_le_bytes().to_vec())).into_iter();
                let damages = damages.chain(kinds.map(|field| (4, field.to_le_bytes().to_vec())));
                let damages = damages.chain(senders.map(|field| (6, field.to_le_bytes().to_vec())));
                for (field, value) in damages {
                    // The zeros are enough for the longest record.
                    let mut input = [&run.input[..], &[0; LONGEST]].concat();
                    input[at + field..][..value.len()].copy_from_slice(&value);
                    let about = format!("{}, record at {at}: {value:?} in the header's place {field}", run.name);
                    given.extend(answers(&compare(&input, &about)));
                }
            }
            at += record.len();
        }
    }
    assert!(seen.len() >= 12, "records: {seen:?}");
    assert!([0, 3, 4, 5, 6].iter().all(|answer| given.contains(answer)), "answers: {given:?}");
}

/// Kinds 10 and 11: 3 comes before 6, and after it nothing is answered.
#[test]
fn lengths_and_senders_of_the_programs_own_kinds() {
    for (kind, right) in [(kind::TIMER, TIMER), (kind::PROPOSE, PROPOSE)] {
        for length in HEADER..=48 {
            for sender in [0, 1, 256, u16::MAX] {
                let about = format!("kind {kind}, {length} bytes, sender {sender}");
                let input = [opening(), record(length, kind, sender), timer(), timer()].concat();
                let answers = answers(&compare(&input, &about));
                match (length == right, sender == 0) {
                    (false, _) => assert_eq!(answers, [3], "{about}"),
                    (true, false) => assert_eq!(answers, [6, 0, 10], "{about}"),
                    (true, true) => assert_eq!(answers[0], 0, "{about}"),
                }
            }
        }
    }
}

/// Kinds that no replica takes have no length of their own; an opening that comes later is one of them.
#[test]
fn other_kinds() {
    for kind in [0, 4, 9, 12, 13, 0x10a, 0x10b, u16::MAX] {
        for length in [8, 9, 16, 24, 40, 56, 3695, 3696] {
            let about = format!("kind {kind}, {length} bytes");
            let input = [opening(), timer(), record(length, kind, 0), timer(), opening(), timer()].concat();
            assert_eq!(answers(&compare(&input, &about)), [0, 4, 10, 4, 10], "{about}");
        }
    }
}

/// The opening with each of its fields damaged, and other records in its place: one line, and nothing after it.
#[test]
fn openings() {
    let put = |at: usize, value: &[u8]| {
        let mut record = opening();
        record[at..at + value.len()].copy_from_slice(value);
        (format!("{value:?} in place {at}"), record)
    };
    let numbers = |numbers| (format!("{numbers:?}"), bytes(|out| wire::write_opening(out, numbers)));
    let mut rows = Vec::new();
    rows.extend([0, 8, 23, 25, 40, 3696, 3697, u32::MAX].map(|length| put(0, &length.to_le_bytes())));
    rows.extend([0, 1, 10, 11, 13, 0x10c].map(|kind: u16| put(4, &kind.to_le_bytes())));
    rows.extend([1, 256, u16::MAX].map(|sender| put(6, &sender.to_le_bytes())));
    rows.extend((18..24).flat_map(|at| [put(at, &[1]), put(at, &[0x80])]));
    // f, c, k, n and own: one off, and with a bit that no small number has.
    rows.extend([[0, 1, 0, 6, 0], [2, 1, 0, 6, 0], [1, 0, 0, 6, 0], [1, 2, 0, 6, 0], [1, 1, 1, 6, 0]].map(numbers));
    rows.extend([[1, 1, 0, 5, 0], [1, 1, 0, 7, 0], [1, 1, 0, 6, 6], [1, 1, 0, 6, u16::MAX]].map(numbers));
    rows.extend([[257, 1, 0, 6, 0], [1, 257, 0, 6, 0], [1, 1, 256, 6, 0], [1, 1, 0, 262, 0]].map(numbers));
    rows.extend(
        [[1, 1, 0, 6, 256], [8, 4, 0, 33, 0], [0, 0, 32, 33, 0], [0, 0, 0, 0, 0], [0, 0, 0, 1, 1]].map(numbers),
    );
    rows.extend([timer(), propose(), vote(), longest()].map(|record| ("another record".to_string(), record)));
    rows.extend([23, 25].map(|length| (format!("{length} bytes"), record(length, kind::OPENING, 0))));
    for (about, record) in rows {
        let input = [&record[..], &opening(), &timer()].concat();
        assert_eq!(compare(&input, &about), REFUSED, "{about}");
        assert_eq!(compare(&record, &about), REFUSED, "{about}, alone");
    }
}

/// Every settings that is taken, with the highest own number.
#[test]
fn all_settings_open() {
    for settings in oracle::Settings::all() {
        let [f, c, k, n] = [settings.f(), settings.c(), settings.k(), settings.n()].map(|number| number as u16);
        let input = [bytes(|out| wire::write_opening(out, [f, c, k, n, n - 1])), timer()].concat();
        let about = format!("{settings:?}");
        assert_eq!(answers(&compare(&input, &about)), [0], "{about}");
    }
}

/// A record of 3,696 bytes is taken, one of 3,697 isn't.
#[test]
fn the_longest_record() {
    let longest = longest();
    assert_eq!(longest.len(), 3696);
    let mut longer = [&longest[..], &[0]].concat();
    longer[..4].copy_from_slice(&3697u32.to_le_bytes());
    let rows: [(&[&[u8]], &[u16]); 6] = [
        (&[&longest, &longest, &timer()], &[0, 10, 7]),
        (&[&longest, &longest[..3695]], &[0, 3]),
        (&[&record(3696, 0, 0), &longest, &longest], &[4, 0, 10]),
        (&[&record(3696, kind::PROPOSAL, 0), &longest], &[3]),
        (&[&longer, &longest], &[3]),
        (&[&record(3697, 0, 0), &longest], &[3]),
    ];
    for (at, (records, wanted)) in rows.into_iter().enumerate() {
        let input = [&opening_of_32()[..], &records.concat()].concat();
        assert_eq!(answers(&compare(&input, &format!("row {at}"))), wanted, "row {at}");
    }
}

// ---------------------------------------------------------------- where they fall against the buffer

/// Records of kind 0 of that many bytes together, a header's at least.
fn filler(mut bytes: usize) -> Vec<u8> {
    let mut filler = Vec::new();
    while bytes > LONGEST {
        let length = LONGEST.min(bytes - HEADER);
        filler.extend(record(length, 0, 0));
        bytes -= length;
    }
    [filler, record(bytes, 0, 0)].concat()
}

/// A record with any number of its bytes before the buffer's end. The answers after it tell whether each of its bytes was
/// kept: the same record again and the block that was proposed are held only if they are the same.
#[test]
fn records_across_the_buffers_end() {
    let proposed = bytes(|out| wire::write_block(out, 0, &Block { name: A, parent: GENESIS, height: Height(1) }));
    let rows = [
        (record(HEADER, 0, 0), [4, 4, 0]),
        (timer(), [0, 10, 0]),
        (propose(), [0, 15, 10]),
        (vote(), [0, 10, 0]),
        (longest(), [0, 10, 0]),
    ];
    for (record, wanted) in rows {
        let n = record.len();
        let places = (0..=n).filter(|before| n < 100 || *before < 20 || before % 101 == 0 || n - before < 20);
        for before in places {
            let about = format!("{before} of {n} bytes");
            let start = [opening_of_32(), filler(BUFFER - before)].concat();
            let fillers = answers(&expected(&start)).len();
            // Two more ends of the buffer, each in another record.
            let rest = [&record[..], &proposed, &longest(), &vote(), &longest(), &longest(), &timer(), &longest()];
            let input = [&start[..], &record, &rest.concat(), &filler(BUFFER), &timer()].concat();
            let answers = answers(&compare_from_file(&input, &about));
            assert_eq!(answers[fillers..fillers + 3], wanted, "{about}");
        }
    }
}

/// A long stream of short and long records behind a number of small ones.
#[test]
fn shifted_streams() {
    let mixed = [longest(), timer(), vote(), record(8, 0, 0), propose(), timer(), record(1001, 9, 1), vote()].concat();
    let streams = [("mixed", mixed.repeat(6), 48), ("timers", timer().repeat(1200), 1200)];
    for small in 0..=20 {
        for (length, sender) in [(8, 0), (9, 1)] {
            let start = [opening_of_32(), record(length, 0, sender).repeat(small)].concat();
            for (name, stream, records) in &streams {
                let about = format!("{name} behind {small} records of {length} bytes");
                let lines = answers(&compare_from_file(&[&start[..], stream].concat(), &about)).len();
                assert_eq!(lines, small + records, "{about}");
            }
        }
    }
}

/// Headers alone are the most records that a buffer can hold, 1,024. One without a length stops the run: before the
/// buffer's end, at it, behind it, or never.
#[test]
fn headers_alone() {
    let most = BUFFER / HEADER;
    for shift in 0..HEADER {
        for stop in [most - 1, most, most + 1, 2 * most, 2 * most + 1, 5 * most] {
            let mut headers = record(HEADER, 0, 0).repeat(4 * most);
            if let Some(length) = headers.get_mut((stop - 2) * HEADER) {
                *length = 0;
            }
            let about = format!("a first record of {} bytes, stop at call {stop}", HEADER + shift);
            let input = [opening(), record(HEADER + shift, 0, 0), headers].concat();
            let lines = answers(&compare_from_file(&input, &about)).len();
            assert_eq!(lines, stop.min(1 + 4 * most), "{about}");
        }
    }
}

/// Calls made to be taken, of any settings, among damaged ones.
#[test]
fn generated_streams() {
    let mut given = BTreeSet::new();
    for seed in 0..24 {
        let input = streams::input(streams::Opening::seeded(seed), seed, 400);
        assert!(input.len() > 3 * BUFFER, "seed {seed}: {} bytes", input.len());
        given.extend(answers(&compare_from_file(&input, &format!("seed {seed}"))));
    }
    assert!((4..=15).filter(|answer| *answer != 13).all(|answer| given.contains(&answer)), "answers: {given:?}");
}

// ---------------------------------------------------------------- how the bytes arrive

/// Inputs of a few thousand bytes, and of more than the buffer holds.
fn streams_to_arrive() -> Vec<(String, Vec<u8>)> {
    let stored = stories::runs().into_iter().map(|run| (run.name.to_string(), run.input));
    let seeded = (100..104).map(|seed| (seed, streams::input(streams::Opening::seeded(seed), seed, 300)));
    let mut streams: Vec<_> = stored.chain(seeded.map(|(seed, input)| (format!("seed {seed}"), input))).collect();
    let long = [longest(), vote(), timer(), longest(), propose(), record(3695, 9, 0)].concat().repeat(3);
    streams.push(("long records".to_string(), [opening_of_32(), long, timer()[..15].to_vec()].concat()));
    streams.push(("headers alone".to_string(), [opening(), record(HEADER, 0, 0).repeat(2500)].concat()));
    streams
}

/// Cuts of any size: many of a few bytes, and some of more than the buffer holds.
fn portions<'a>(mut rest: &'a [u8], random: &mut Random) -> Vec<&'a [u8]> {
    let mut portions = Vec::new();
    while !rest.is_empty() {
        let most = [9, 100, 1000, 5000, 10_000][random.below(5)];
        let (portion, left) = rest.split_at(rest.len().min(1 + random.below(most)));
        portions.push(portion);
        rest = left;
    }
    portions
}

/// At once, as a file, in random portions, and byte by byte where the input is short. The pauses let the program read
/// what has come; the lines must be the same however much that is.
#[test]
fn the_lines_do_not_depend_on_the_portions() {
    let pause = Duration::from_micros(100);
    let mut random = Random::new(1);
    for (name, input) in streams_to_arrive() {
        let expected = expected(&input);
        assert_same(&RUN.printed(&input), &expected, &format!("{name} at once"));
        assert_same(&RUN.printed_from_file(&input), &expected, &format!("{name} as a file"));
        for round in 0..6 {
            let portions = portions(&input, &mut random);
            assert_same(&RUN.printed_by_portions(&portions, pause), &expected, &format!("{name} in portions, {round}"));
        }
        if input.len() < 1000 {
            let single: Vec<&[u8]> = input.chunks(1).collect();
            assert_same(&RUN.printed_by_portions(&single, pause), &expected, &format!("{name} byte by byte"));
        }
    }
}

/// A record's line comes before the next record is written, also where the next one's first bytes are there already.
#[test]
fn each_line_comes_before_the_next_record() {
    for (name, input) in streams_to_arrive().into_iter().filter(|(name, _)| !name.starts_with("bad-settings")) {
        let expected = expected(&input);
        for ahead in [0, 1, 7, 8, 15] {
            let about = format!("{name}, {ahead} bytes ahead");
            let (mut running, mut stdin) = RUN.with_open_input();
            let (mut end, mut written) = (0, 0);
            let mut lines = expected.split_inclusive('\n');
            // The opening's is the header line.
            for (record, line) in records(&input).into_iter().zip(&mut lines) {
                end += record.len();
                let until = input.len().min(end + ahead);
                stdin.write_all(&input[written..until]).unwrap_or_else(|error| panic!("{about}: {error}"));
                written = until;
                assert_eq!(running.line(), line, "{about}");
            }
            // What is left is cut short, or comes after a stop, and then nobody may read it.
            let _ = stdin.write_all(&input[written..]);
            drop(stdin);
            assert_same(&running.rest(), &lines.collect::<String>(), &about);
        }
    }
}

/// "Prints its line with answer 3 and stops": it ends although its input is open and could go on.
#[test]
fn it_stops_while_its_input_is_open() {
    let mut rows = vec![
        ("settings that are refused".to_string(), bytes(|out| wire::write_opening(out, [1, 1, 0, 7, 0]))),
        ("no opening".to_string(), record(24, kind::TIMER, 0)),
    ];
    let mut stops = vec![record(8, kind::TIMER, 0), record(16, kind::PROPOSE, 0), record(47, kind::VOTE, 2)];
    stops.extend([0, 7, 3697, u32::MAX].map(|length| [length.to_le_bytes(), [0; 4]].concat()));
    for stop in stops {
        for after in [&[][..], &[1], &timer(), &[0; BUFFER]] {
            let about = format!("stop by {stop:?}, {} bytes after it", after.len());
            rows.push((about, [&opening(), &timer(), &stop[..], after].concat()));
        }
    }
    for (about, input) in rows {
        let expected = expected(&input);
        assert!(expected == REFUSED || answers(&expected) == [0, 3], "{about}: {expected}");
        let (running, mut stdin) = RUN.with_open_input();
        let _ = stdin.write_all(&input); // it may stop before
        assert_same(&running.rest(), &expected, &about);
        drop(stdin);
    }
}
