//! Streams reach every answer and every path, and one seed always gives the same.

use streams::{input, play, play_stream, reachable, Coverage, Opening, Path, Stream};

#[test]
fn every_reachable_answer_and_path_comes_up() {
    let mut coverage = Coverage::default();
    for seed in 0..150 {
        play_stream(Opening::seeded_led(seed), Stream::new(seed).with_contents(), 1000, &mut coverage);
    }
    println!("{coverage}");
    assert_eq!(coverage.missing(&reachable()), [], "reachable pairs (row, answer)");
    assert_eq!(coverage.unlisted(&reachable()), [], "pairs that the papers don't have");
    assert_eq!(coverage.missing_cases(), [], "right and wrong contents, by what the call answers without them");
    assert_eq!(coverage.missing_paths(), [Path::LedByNobody], "opening refuses such a list");
    for (path, times) in [
        (Path::NoByzantine, 10_000),
        (Path::AboveBound, 20_000),
        (Path::DecidedAlone, 500),
        (Path::TimedOutAlone, 200),
        (Path::EchoAndCertificate, 200),
        (Path::CertificateAndFastRelease, 50),
    ] {
        assert!(coverage.of_path(path) > times, "{path:?}: {}", coverage.of_path(path));
    }
    assert!(coverage.accepted_percent() >= 30, "{} % accepted", coverage.accepted_percent());
}

#[test]
fn refused_calls_change_nothing() {
    for seed in 1000..1010 {
        let mut replica = Opening::seeded_led(seed).open();
        let mut stream = Stream::new(seed).with_contents();
        let mut out = Vec::new();
        for _ in 0..500 {
            let call = stream.next(&replica);
            let before = replica.clone();
            out.clear();
            match call.make(&mut replica, &mut out) {
                Ok(written) => assert_eq!(written, out.len()),
                Err(_) => assert!(replica == before && out.is_empty()),
            }
            assert!(out.len() <= 26_624, "the bound on a call's output");
        }
    }
}

#[test]
fn a_seed_gives_the_same_stream() {
    let opening = Opening::seeded(7);
    let one = play(opening, 7, 300, &mut Coverage::default());
    let two = play(opening, 7, 300, &mut Coverage::default());
    assert!(one.calls == two.calls && one.replica == two.replica);
    assert_ne!(one.calls, play(opening, 8, 300, &mut Coverage::default()).calls);
}

#[test]
fn inputs_run_to_their_end() {
    for seed in 0..20 {
        let calls = 200;
        let bytes = input(Opening::seeded(seed), seed, calls);
        let mut lines = Vec::new();
        oracle::run::run(&bytes, Default::default(), &mut lines).unwrap();
        assert_eq!(String::from_utf8(lines).unwrap().lines().count(), calls + 1, "seed {seed}");
    }
}
