//! Calls where many blocks are held.

use oracle::Block;
use streams::Kind;

use crate::life::Life;
use crate::measure::{Mark, Script, Times};
use crate::table::{Row, Table};

pub const KINDS: [Kind; 4] = [Kind::Vote, Kind::Commit, Kind::Timeout, Kind::Proposal];
pub const SHAPES: [&str; 2] = ["chain", "bush"];
const HELD: [usize; 4] = [0, 16, 64, 120];

/// The cluster of 6. Four views went well, and their votes and commits are still kept; then so many blocks are held above
/// the tip. Timed are a view's proposal, votes and commits, too few for a release, and the next view's timeouts.
pub fn measure(rounds: usize) -> Table {
    let states: Vec<(&str, usize)> = SHAPES.iter().flat_map(|shape| HELD.map(|held| (*shape, held))).collect();
    let script = |(shape, held)| (0..30).map(|seed| script(shape, held, seed)).collect();
    let cases: Vec<Vec<Script>> = states.iter().copied().map(script).collect();
    let mut rows = Vec::new();
    for ((shape, held), times) in states.iter().zip(Times::measure(&cases, rounds)) {
        for kind in KINDS {
            let labels = vec![held.to_string(), shape.to_string(), format!("{kind:?}")];
            let mean = times.mean(|mark| mark == Mark::Accepted(kind)).expect("such calls are made");
            rows.push(Row { labels, times: mean });
        }
    }
    let title = "n 6, blocks held above the tip: a call that releases nothing".to_string();
    Table { name: "held", title, columns: &["held", "as a", "call"], against: "oracle", rows }
}

fn script(shape: &str, held: usize, seed: u64) -> Script {
    let mut life = Life::new((1, 1, 0), seed);
    (0..4).for_each(|_| life.release());
    hold(&mut life, shape == "chain", held);
    life.timed = true;
    let view = life.view();
    life.propose();
    life.votes(view, life.top.name, 4);
    life.commits(view, life.top.name, 2);
    life.time_out();
    life.script()
}

/// A chain, or a tree in which every block has two children.
fn hold(life: &mut Life, as_chain: bool, held: usize) {
    let mut blocks: Vec<Block> = vec![life.tip()];
    for i in 1..=held {
        let parent = blocks[if as_chain { i - 1 } else { i / 2 }];
        let block = life.child(&parent);
        life.hold(&block);
        blocks.push(block);
    }
}
