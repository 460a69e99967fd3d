//! Playing recordings: as the run program does, and whatever the bytes.

mod common;

use common::{names, stored};
use oracle::{Faults, Protocol, Replica};
use sim::Proved;
use view::{page, Panel, Played, Recording};

/// On the library; the oracle's run is the same.
fn played(recording: &Recording) -> Played {
    let protocol = Protocol::new(recording.settings, Faults::NONE);
    let library = Played::new::<Proved>(recording, (), protocol);
    let other = Played::new::<Replica>(recording, Faults::NONE, protocol);
    assert_eq!(library.events, other.events);
    library
}

/// The lines of the run program for these events.
fn lines(played: &Played) -> String {
    let mut lines = "call answer view timed height\n".to_string();
    for event in &played.events {
        let state = event.after;
        lines += &format!("{} {} {} {} {}\n", event.index, event.answer, state.view, state.timed, state.height);
    }
    lines
}

#[test]
fn answers_and_states_are_those_of_the_run_program() {
    for name in names() {
        let recording = Recording::read(&stored(&format!("{name}.bin"))).unwrap();
        let expected = String::from_utf8(stored(&format!("{name}.txt"))).unwrap();
        assert_eq!(lines(&played(&recording)), expected, "{name}");
    }
}

/// A small generator of numbers; the same every time.
struct Numbers(u64);

impl Numbers {
    fn below(&mut self, limit: usize) -> usize {
        self.0 = self.0.wrapping_mul(6_364_136_223_846_793_005).wrapping_add(1_442_695_040_888_963_407);
        (self.0 >> 33) as usize % limit
    }
}

/// Damages some bytes, or cuts the file off.
fn damage(bytes: &mut Vec<u8>, numbers: &mut Numbers) {
    for _ in 0..1 + numbers.below(6) {
        let at = numbers.below(bytes.len());
        bytes[at] = numbers.below(256) as u8;
    }
    if numbers.below(4) == 0 {
        bytes.truncate(numbers.below(bytes.len()));
    }
}

#[test]
fn damaged_files_are_shown_or_turned_away() {
    let mut numbers = Numbers(7);
    let files: Vec<Vec<u8>> =
        names().iter().map(|name| stored(&format!("{name}.bin"))).chain([stored("story.run")]).collect();
    let (mut shown, mut refused) = (0, 0);
    for round in 0..600 {
        let mut bytes = files[round % files.len()].clone();
        damage(&mut bytes, &mut numbers);
        match Recording::read(&bytes) {
            Ok(recording) => {
                let played = played(&recording);
                let panel = Panel { heading: String::new(), played: &played };
                assert!(page("damaged", &[panel]).ends_with("</html>\n"));
                shown += 1;
            }
            Err(error) => {
                assert!(!error.to_string().is_empty());
                refused += 1;
            }
        }
    }
    assert!(shown > 200 && refused > 20, "{shown} {refused}");
}
