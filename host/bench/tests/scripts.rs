//! What is timed is what it seems: both sides answer every scripted call alike, and pictures and tables are whole.

use bench::contents::Way;
use bench::measure::{Mark, Script, Times};
use bench::sides::{Library, Oracle, Side};
use bench::table::{Row, Table};
use bench::{contents, decisive, held, kinds, markdown, names, plot, releases, size, timeouts};
use streams::Kind;

fn assert_alike(script: &Script) {
    let mut library = Library::new(script.opening);
    let mut oracle = Oracle::new(script.opening);
    for (call, mark) in &script.calls {
        let accepted = oracle.make(call);
        assert_eq!(library.make(call), accepted, "{call:?}");
        assert!(*mark == Mark::Untimed || *mark == Mark::of(call, accepted), "{mark:?}");
    }
}

#[test]
fn both_sides_answer_a_cluster_at_work_alike() {
    for settings in size::SETTINGS {
        let script = size::script(settings, 1);
        assert_alike(&script);
        let is_refused = |(_, mark): &(_, Mark)| matches!(mark, Mark::Refused(kind) if *kind != Kind::Timeout);
        assert!(!script.calls.iter().any(is_refused), "only late timeouts are refused");
    }
}

/// Contents that end at every place of a block, or it would panic.
#[test]
fn library_and_c_name_alike() {
    (0..=192).for_each(|length| drop(names::Question::any(length, 1)));
}

/// With their contents and without: the calls fit their states, or it would panic.
#[test]
fn blocks_are_taken_with_their_contents() {
    for kind in contents::Kind::ALL {
        for (length, way) in contents::LENGTHS.into_iter().zip([Way::With, Way::Plain, Way::With]) {
            contents::Chain::new(kind, length, 1).play(|library, call| call.make(library, way));
        }
    }
}

/// One round of each section: the calls fit their states, or it would panic.
#[test]
fn sections_are_whole() {
    let [held, timeouts, size] = [held::measure(1), timeouts::measure(1), size::measure(1)];
    let [releases, decisive, names] = [releases::measure(1), decisive::measure(1), names::measure(1)];
    let tables = [held, timeouts, size, releases, decisive, names, contents::measure(1)];
    for (table, rows) in tables.iter().zip([32, 3, 24, 14, 24, 4, 9]) {
        assert_eq!(table.rows.len(), rows, "{}", table.name);
        assert!(table.rows.iter().all(|row| row.times.iter().all(|time| *time > 0.0)), "{table}");
        assert_eq!(table.csv().lines().count(), rows + 1);
    }
    let picture = plot::draw(&tables[2], &tables[0]);
    assert!(picture.starts_with("<svg") && picture.ends_with("</svg>\n"));
    assert_eq!(picture.matches("<polyline").count(), 16);
    assert_eq!(picture.matches("<text").count(), picture.matches("</text>").count());
}

#[test]
fn means_are_of_the_calls_asked_for() {
    let script = size::script(size::SETTINGS[0], 1);
    let proposals = script.calls.iter().filter(|(_, mark)| *mark == Mark::Accepted(Kind::Proposal)).count();
    let times = &Times::measure(&[vec![script]], 1)[0];
    assert_eq!(times.count(|mark| mark == Mark::Accepted(Kind::Proposal)), proposals);
    assert!(times.mean(|mark| mark == Mark::Accepted(Kind::Proposal)).is_some());
    assert!(times.mean(|mark| mark == Mark::Accepted(Kind::Foreign)).is_none());
}

#[test]
fn a_table_as_csv() {
    let row = |label: &str| Row { labels: vec!["6".to_string(), label.to_string()], times: [1500.4, 500.0] };
    let rows = vec![row("Vote"), row("one, two")];
    let table = Table { name: "size", title: String::new(), columns: &["n", "call"], against: "C", rows };
    assert_eq!(table.csv(), "n,call,library ns,C ns,ratio\n6,Vote,1500,500,3.00\n6,\"one, two\",1500,500,3.00\n");
    assert_eq!(table.series(&["Vote"]), [(6.0, [1500.4, 500.0])]);
}

/// Headings, and tables with their figures left out.
fn forms(text: &str) -> Vec<String> {
    let form = |cell: &str| if cell.contains(" / ") { "figures".to_string() } else { cell.to_string() };
    let is_kept = |line: &&str| line.starts_with("## ") || line.starts_with('|');
    text.lines().filter(is_kept).map(|line| line.split('|').map(form).collect::<Vec<_>>().join("|")).collect()
}

#[test]
fn tables_as_markdown_are_those_of_the_document() {
    let document = include_str!("../../../docs/PERFORMANCE.md");
    let [first, behind] = ["## Every kind of call", "## Where the time goes"].map(|heading| document.find(heading));
    let document = &document[first.expect("the first table")..behind.expect("what follows the tables")];
    let kinds = kinds::table(&kinds::measure(6000, 1));
    let [size, held, timeouts] = [size::measure(1), held::measure(1), timeouts::measure(1)];
    let [decisive, releases, names] = [decisive::measure(1), releases::measure(1), names::measure(1)];
    let tables = [kinds, size, held, timeouts, decisive, releases, names, contents::measure(1)];
    assert_eq!(forms(&tables.each_ref().map(markdown::section).concat()), forms(document));
}
