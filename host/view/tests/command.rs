//! The command on good and on malformed files.

mod common;

use common::{names, scratch, shown, stored, view};

/// Writes the bytes to a file, runs the command on it, and gives its exit code and message.
fn refused(name: &str, bytes: &[u8]) -> String {
    let path = scratch(name);
    std::fs::write(&path, bytes).unwrap();
    let output = view(&[path.to_str().unwrap()]);
    std::fs::remove_file(&path).unwrap();
    assert_eq!(output.code, Some(1), "{name}: {}{}", output.out, output.err);
    assert!(output.err.starts_with("view: ") && output.err.lines().count() == 1, "{name}: {}", output.err);
    output.err
}

#[test]
fn the_story_in_words() {
    let text = shown(&["runs/story.run"]);
    let lines = [
        "Ranked rightly: one chain",
        "replica 0 is Byzantine",
        "view 2, leader 1",
        "    17  replica 3 <- commit of 0 for A in view 1 -> accepted, writes RELEASE of A at height 1  \
         [view 2, timed 0, lock A of view 1, height 1]",
        "    30  replica 2 <- propose C -> accepted, writes proposal of 2 in view 3: C on A at height 2; \
         vote of 2 for C in view 3  [view 3, timed 2, lock A of view 1, height 0]",
        "  released 1 A, 2 C",
    ];
    for line in lines {
        assert!(text.lines().any(|other| other == line), "{line}\n{text}");
    }
}

/// Over the library, which is the rule, and over the oracle.
#[test]
fn both_cores_tell_the_same() {
    let inputs = names().into_iter().map(|name| format!("{name}.bin"));
    for file in inputs.chain(["story.run".to_string(), "story-wrong.run".to_string()]) {
        let file = format!("runs/{file}");
        let library = shown(&[&file]);
        assert!(library.contains("calls accepted"), "{library}");
        for core in ["library", "oracle"] {
            assert_eq!(shown(&["--core", core, &file]), library, "{core}: {file}");
        }
    }
}

#[test]
fn a_fault_is_of_the_run_beside_or_of_the_run_itself() {
    let wrong = shown(&["--summary", "--fault", "weak-over-block", "runs/story-wrong.run"]);
    assert!(wrong.contains("released 1 B, 2 C"), "{wrong}");
    let both =
        shown(&["--summary", "--beside", "runs/story-wrong.run", "--fault", "weak-over-block", "runs/story.run"]);
    assert!(both.contains("released 1 A, 2 C") && both.contains("released 1 B, 2 C"), "{both}");
    let rightly = shown(&["--summary", "runs/story-wrong.run"]);
    assert!(rightly.contains("proposal: 13, parent isn't the safe block"), "{rightly}");
    let unsent = "note: 3 accepted records were never sent by the honest replicas named in them";
    assert!(rightly.contains(unsent) && !both.contains("never sent"), "{rightly}{both}");
}

#[test]
fn refusals_have_their_meaning() {
    let text = shown(&["runs/listing.bin"]);
    assert!(text.contains("timer of view 2 -> refused 8: view above the current one"), "{text}");
    assert!(text.contains("-> refused 15: not its turn"), "{text}");
    let damaged = shown(&["runs/damaged.bin"]);
    assert!(damaged.contains("record of kind 2, 30 bytes -> refused 3: cut short"), "{damaged}");
}

#[test]
fn names_that_look_alike_are_told() {
    let mut input = stored("listing.bin")[..24].to_vec();
    for last in [1, 2] {
        let mut record = vec![80, 0, 0, 0, 8, 0, 2, 0];
        record.extend([7; 31]);
        record.push(last);
        record.extend([0; 32]);
        record.extend(1u64.to_le_bytes());
        input.extend(record);
    }
    let path = scratch("alike.bin");
    std::fs::write(&path, input).unwrap();
    let text = shown(&[path.to_str().unwrap()]);
    std::fs::remove_file(&path).unwrap();
    assert!(text.contains("2 of 2 calls accepted"), "{text}");
    assert!(text.contains("note: 2 different names are shown as 07070707"), "{text}");
    assert!(!shown(&["runs/refusals.bin"]).contains("different names"));
}

#[test]
fn several_replicas_side_by_side() {
    let path = scratch("lanes.svg");
    let svg = path.to_str().unwrap();
    shown(&["--svg", svg, "runs/story-1.bin", "runs/story-2.bin", "runs/story-3.bin"]);
    let picture = std::fs::read_to_string(&path).unwrap();
    std::fs::remove_file(&path).unwrap();
    for replica in 1..=3 {
        assert!(picture.contains(&format!(">replica {replica}</text>")));
    }
    assert!(!picture.contains("marker") && !picture.contains("stroke-opacity"), "lanes without arrows");
}

#[test]
fn files_that_do_not_go_together() {
    let fails = |arguments: &[&str], words: &str| {
        let output = view(&[&["--svg", "unwritten.svg"], arguments].concat());
        assert_eq!(output.code, Some(1), "{arguments:?}");
        assert!(output.err.contains(words), "{}", output.err);
    };
    fails(&["runs/story-1.bin", "runs/story-1.bin"], "two files are of replica 1");
    fails(&["runs/story-1.bin", "runs/story.run"], "a cluster run stands alone");
}

#[test]
fn malformed_inputs() {
    let input = stored("listing.bin");
    assert!(refused("empty", &[]).contains("neither an input of the run program"));
    assert!(refused("short", &input[..20]).contains("neither an input of the run program"));
    assert!(refused("headless", &input[24..]).contains("isn't a well-formed opening"));
    assert!(refused("settings", &stored("bad-settings.bin")).contains("the opening is refused (1)"));
}

#[test]
fn malformed_cluster_runs() {
    let text = String::from_utf8(stored("story.run")).unwrap();
    let with = |from: &str, to: &str| {
        assert!(text.contains(from), "{from}");
        text.replacen(from, to, 1).into_bytes()
    };
    let opening = text.lines().find(|line| line.starts_with("1 18")).expect("the opening of replica 1");
    assert!(refused("alone", b"cluster run, format 1\n").contains("without an opening"));
    assert!(refused("line", &with("byzantine 0", "byzantine")).contains("line 4: neither `title`"));
    assert!(refused("number", &with("byzantine 0", "byzantine x")).contains("line 4: `x` isn't a replica's number"));
    assert!(refused("byzantine", &with("byzantine 0", "byzantine 1")).contains("can't be Byzantine"));
    assert!(refused("outside", &with("byzantine 0", "byzantine 6")).contains("can't be Byzantine"));
    assert!(refused("title", &with("byzantine 0", "title again")).contains("is given twice"));
    assert!(refused("odd", &with(opening, &opening[..opening.len() - 1])).contains("hex digits"));
    assert!(refused("accent", &with(opening, "1 é1")).contains("hex digits"));
    assert!(refused("own", &with(opening, &opening.replacen('1', "2", 1))).contains("own number"));
    assert!(refused("unopened", &with(opening, "")).contains("isn't a well-formed opening"));
    assert!(refused("binary", b"cluster run, format 1\n\xff\xfe").contains("isn't text"));
}

#[test]
fn wrong_arguments() {
    let file = "runs/story.run";
    for arguments in
        [&[][..], &["--html"], &["--nothing", file], &["--fault", "none", file], &["--core", "neither", file]]
    {
        let output = view(arguments);
        assert_eq!(output.code, Some(2), "{arguments:?}");
        assert!(output.err.contains("usage: view"), "{}", output.err);
    }
    let missing = view(&["runs/missing.bin"]);
    assert_eq!(missing.code, Some(1));
    assert!(missing.err.starts_with("view: runs/missing.bin: "), "{}", missing.err);
}

#[test]
fn every_stored_run_can_be_shown() {
    for name in names() {
        let file = format!("runs/{name}.bin");
        assert!(shown(&["--summary", &file]).contains("calls accepted"));
        let path = scratch(&format!("{name}.html"));
        shown(&["--html", path.to_str().unwrap(), "--title", "<a & b>", &file]);
        let page = std::fs::read_to_string(&path).unwrap();
        std::fs::remove_file(&path).unwrap();
        assert!(page.contains("<title>&lt;a &amp; b&gt;</title>"), "{name}");
    }
}

#[test]
fn progress_is_told_when_asked() {
    let mut input = stored("listing.bin")[..24].to_vec();
    let timer = stored("listing.bin")[24..40].to_vec();
    (0..50_000).for_each(|_| input.extend_from_slice(&timer));
    let path = scratch("long.bin");
    std::fs::write(&path, input).unwrap();
    let file = path.to_str().unwrap();
    let [told, silent] = [view(&["--progress", "--summary", file]), view(&["--summary", file])];
    std::fs::remove_file(&path).unwrap();
    assert_eq!(told.err, "view: 20000 of 50000 calls\nview: 40000 of 50000 calls\n");
    assert_eq!(silent.err, ""); // standard error is no terminal here
    assert!(told.out.contains("refused 50000  timer: 8, view above the current one"), "{}", told.out);
}
