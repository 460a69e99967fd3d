//! Whose timeout decided: in the timeline, on the page and in the picture.

mod common;

use common::{scratch, shown, stored};
use oracle::wire;
use oracle::{Certificate, Timeout, View, Vote};

const HUNG: &str =
    "timeout certificate of view 1: the choice of A hung on the timeout of replica 2; without it the safe \
                    block would be B";
const JUST_ENOUGH: &str =
    "timeout certificate of view 2: the choice of A hung on no single timeout; it has just enough, 4, \
                           and none can be left out";
const NO_SINGLE: &str =
    "timeout certificate of view 1: the choice of genesis hung on no single timeout; whichever is left out, \
                         the safe block is the same";

/// The lines on timeout certificates, each with the number of the call that it stands below.
fn lines(text: &str) -> Vec<(usize, &str)> {
    let mut call = 0;
    let mut found = Vec::new();
    for line in text.lines() {
        match line.strip_prefix("          timeout certificate") {
            Some(_) => found.push((call, line.trim_start())),
            None => call = line.split_whitespace().next().and_then(|word| word.parse().ok()).unwrap_or(call),
        }
    }
    found
}

#[test]
fn the_decisive_timeout_is_named() {
    assert_eq!(lines(&shown(&["runs/decisive-timeout.bin"])), [(3, HUNG)]);
}

/// Replica 2 forms it by call 25 and sends it on; 1, 4 and 5 get it in a proposal.
#[test]
fn a_certificate_is_spoken_of_once() {
    assert_eq!(lines(&shown(&["runs/story.run"])), [(25, JUST_ENOUGH)]);
    assert_eq!(lines(&shown(&["runs/story-4.bin"])), [(5, JUST_ENOUGH)]);
}

/// The call knows nothing of errors, so that it can't speak for replicas that have them.
#[test]
fn nothing_is_said_of_replicas_with_an_error() {
    let wrong = shown(&["--fault", "weak-over-block", "runs/story-wrong.run"]);
    assert!(wrong.contains("writes timeout certificate of view 2 by 0 2 4 5"), "{wrong}");
    assert_eq!(lines(&wrong), []);
}

/// All but one of six have timed out, and nobody has voted.
#[test]
fn no_single_timeout_decides() {
    let timeout = |sender| Timeout { sender, view: View(1), high_vote: Vote::NONE, certificate: Certificate::GENESIS };
    let mut input = stored("listing.bin")[..wire::OPENING].to_vec();
    wire::write_timeout_certificate(&mut input, 0, View(1), &[0, 1, 2, 3, 4].map(timeout));
    let path = scratch("no-single.bin");
    std::fs::write(&path, input).unwrap();
    let text = shown(&[path.to_str().unwrap()]);
    std::fs::remove_file(&path).unwrap();
    assert_eq!(lines(&text), [(1, NO_SINGLE)]);
}

#[test]
fn the_page_and_its_picture_say_it_too() {
    let path = scratch("decisive.html");
    shown(&["--html", path.to_str().unwrap(), "runs/decisive-timeout.bin"]);
    let page = std::fs::read_to_string(&path).unwrap();
    std::fs::remove_file(&path).unwrap();
    let (picture, table) = page.split_once("<table>").expect("a table");
    for part in [picture, table] {
        assert_eq!(part.matches(HUNG).count(), 1, "{page}");
    }
}
