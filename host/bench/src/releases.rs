//! Releases: chains of some length at once, and the longest calls known.

use oracle::{Block, Settings, View};

use crate::life::Life;
use crate::measure::{Script, Times};
use crate::table::{Row, Table};

const STORE: usize = 128;

/// What is held, each block by the place of its parent (0 is the tip), and the place of the block released.
struct Case {
    what: String,
    parents: Vec<usize>,
    released: usize,
    decision: Decision,
}

/// Which call decides.
enum Decision {
    /// The last commit that is needed.
    Commit,
    /// A proposal; the same call releases the proposed block on top of the other.
    Proposal,
    /// A commit after many that decide names which aren't held: with f = c = 0 one is enough for each.
    LastOfMany,
}

impl Case {
    /// A chain, all of it released.
    fn whole(length: usize) -> Case {
        let what = format!("chain of {length} and nothing else");
        Case { what, parents: (0..length).collect(), released: length, decision: Decision::Commit }
    }

    /// A full store of one chain.
    fn of_full(released: usize) -> Case {
        let what = format!("block {released} of a chain of {STORE}");
        Case { what, parents: (0..STORE).collect(), released, decision: Decision::Commit }
    }

    /// A chain, and on its last block two chains whose blocks came by turns; its first block is released.
    fn forked(stem: usize) -> Case {
        let what = format!("block 1 of {stem} with two chains on them, by turns");
        Case { what, parents: two_chains(stem).take(STORE).collect(), released: 1, decision: Decision::Commit }
    }

    /// The same, and then the block of the proposal that decides both.
    fn forked_twice(stem: usize) -> Case {
        let what = format!("the same with {stem}, and the proposal that decides both");
        Case { what, parents: two_chains(stem).take(STORE - 1).collect(), released: 1, decision: Decision::Proposal }
    }

    /// A full store of one chain, all of it released after names of every view that are decided and not held.
    fn after_many() -> Case {
        let what = format!("chain of {STORE}, after 247 commits that decide what isn't held");
        Case { what, parents: (0..STORE).collect(), released: STORE, decision: Decision::LastOfMany }
    }
}

fn two_chains(stem: usize) -> impl Iterator<Item = usize> {
    (0..).map(move |i| if i <= stem { i } else { (i - 1).max(stem) })
}

/// Timed is the call that decides.
pub fn measure(rounds: usize) -> Table {
    let lengths = [1, 16, 64, 128].map(Case::whole);
    let full = [Case::of_full(1), Case::of_full(64), Case::forked(1), Case::forked(43), Case::forked_twice(43)];
    let many = [Case::after_many()];
    let groups = [((1, 1, 0), &lengths[..]), ((7, 5, 0), &lengths), ((7, 5, 0), &full), ((0, 0, 31), &many)];
    let cases: Vec<_> =
        groups.iter().flat_map(|(settings, cases)| cases.iter().map(|case| (*settings, case))).collect();
    let scripts = |(settings, case)| (0..5).map(|seed| script(settings, case, seed)).collect();
    let scripts: Vec<Vec<Script>> = cases.iter().copied().map(scripts).collect();
    let times = Times::measure(&scripts, rounds);
    let rows = cases.iter().zip(&scripts).zip(times).map(|(((_, case), scripts), times)| {
        let labels = vec![scripts[0].opening.n.to_string(), case.what.clone()];
        Row { labels, times: times.mean(|_| true).expect("one call is timed") }
    });
    let title = "a release: the call that decides".to_string();
    Table { name: "releases", title, columns: &["n", "released"], against: "oracle", rows: rows.collect() }
}

fn script(settings: (u64, u64, u64), case: &Case, seed: u64) -> Script {
    let mut life = Life::new(settings, seed);
    let mut blocks: Vec<Block> = vec![life.tip()];
    for &parent in &case.parents {
        let block = life.child(&blocks[parent]);
        life.hold(&block);
        blocks.push(block);
    }
    let released = blocks[case.released];
    match case.decision {
        Decision::Commit => decide(&mut life, settings, &released),
        Decision::Proposal => decide_twice(&mut life, settings, &released),
        Decision::LastOfMany => decide_last(&mut life, &released),
    }
    life.script()
}

/// Enough commits; the last one is timed.
fn decide(life: &mut Life, (f, c, _): (u64, u64, u64), released: &Block) {
    let before = (2 * f + c) as u16;
    let view = life.view();
    life.commits(view, released.name, before);
    life.timed = true;
    life.commit(view, released.name, before);
    assert_eq!(life.tip(), *released);
}

/// The next view's proposal has the block's certificate, so the own commit decides the block. The own vote makes a
/// certificate for what is proposed, and that commit decides it too.
fn decide_twice(life: &mut Life, (f, c, k): (u64, u64, u64), released: &Block) {
    let before = (2 * f + c) as u16;
    let votes = Settings::new(f, c, k).expect("good settings").block_quorum() as u16 - 1;
    let (view, next) = (life.view(), View(life.view().0 + 1));
    let proposed = life.child(released);
    life.commits(view, released.name, before);
    life.votes(next, proposed.name, votes);
    life.commits(next, proposed.name, before);
    life.timed = true;
    life.propose_next(&proposed);
    assert_eq!(life.tip(), proposed);
}

/// Every other replica has committed in each view of the window, each time to a block that isn't held, but for the last one
/// in the last view.
fn decide_last(life: &mut Life, released: &Block) {
    (0..4).for_each(|_| life.time_out());
    let (view, others) = (life.view().0, life.others());
    let last = (View(view + 3), others - 1);
    for view in (view - 4..=view + 3).map(View) {
        for sender in (0..others).filter(|sender| (view, *sender) != last) {
            let lacking = life.child(released);
            life.commit(view, lacking.name, sender);
        }
    }
    life.timed = true;
    life.commit(last.0, released.name, last.1);
    assert_eq!(life.tip(), *released);
}
