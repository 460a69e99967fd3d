//! 01's loop to the letter, slow and by other means than `rules`, for tests that compare both.

use std::collections::{BTreeMap, BTreeSet};

use crate::certificate::Certificate;
use crate::judge::{Contents, Judged};
use crate::kept::BallotRows;
use crate::replica::Replica;
use crate::types::{Block, Name, Reply, View};
use crate::wire;

enum Rule {
    A(View),
    B(View),
    C(Certificate),
    D(View, Vec<Block>),
}

/// How often each of the rules A to D ran.
pub type Ran = [u64; 4];

/// The calls, with 01's loop after the event.
pub fn record(replica: &mut Replica, bytes: &[u8], contents: Contents<'_>, out: &mut Vec<u8>, ran: &mut Ran) -> Reply {
    call(replica, out, ran, |replica, out| replica.record_event(bytes, contents, out))
}

pub fn timer(replica: &mut Replica, view: View, out: &mut Vec<u8>, ran: &mut Ran) -> Reply {
    call(replica, out, ran, |replica, out| replica.timer_event(view, out))
}

pub fn propose(replica: &mut Replica, name: Name, contents: Contents<'_>, out: &mut Vec<u8>, ran: &mut Ran) -> Reply {
    call(replica, out, ran, |replica, out| replica.propose_event(name, contents, out))
}

fn call(
    replica: &mut Replica,
    out: &mut Vec<u8>,
    ran: &mut Ran,
    event: impl FnOnce(&mut Replica, &mut Vec<u8>) -> Judged,
) -> Reply {
    let start = out.len();
    event(replica, out)?;
    settle(replica, out, ran);
    Ok(out.len() - start)
}

/// "the first rule that applies is run, again and again"
pub fn settle(replica: &mut Replica, out: &mut Vec<u8>, ran: &mut Ran) {
    while let Some(rule) = first_rule(replica) {
        match rule {
            Rule::A(view) => {
                ran[0] += 1;
                replica.send_timeout(view, out);
            }
            Rule::B(view) => {
                ran[1] += 1;
                replica.form_timeout_certificate(view, out);
            }
            Rule::C(certificate) => {
                ran[2] += 1;
                replica.take_block_certificate(certificate, out);
            }
            Rule::D(view, blocks) => {
                ran[3] += 1;
                release(replica, view, &blocks, out);
            }
        }
    }
}

fn first_rule(replica: &Replica) -> Option<Rule> {
    rule_a(replica).or_else(|| rule_b(replica)).or_else(|| rule_c(replica)).or_else(|| rule_d(replica))
}

fn views(replica: &Replica, back: u64) -> Vec<View> {
    let view = replica.counters.view.0 as i128;
    let all = view - i128::from(back)..=view + 3;
    all.filter(|v| (1..1 << 62).contains(v)).map(|v| View(v as u64)).collect()
}

fn timeouts(replica: &Replica, view: View) -> u32 {
    let n = replica.settings().n();
    (0..n).filter(|&i| replica.memory.timeouts.row(view).get(i as u16).is_some()).count() as u32
}

fn rule_a(replica: &Replica) -> Option<Rule> {
    let applies = |view: &View| replica.counters.timed < *view && timeouts(replica, *view) > replica.settings().f();
    views(replica, 0).into_iter().find(applies).map(Rule::A)
}

fn rule_b(replica: &Replica) -> Option<Rule> {
    let applies = |view: &View| timeouts(replica, *view) >= replica.protocol().quorums.timeout;
    views(replica, 0).into_iter().find(applies).map(Rule::B)
}

/// Who gave which name in a view.
fn tally(replica: &Replica, rows: &BallotRows, view: View) -> BTreeMap<Name, Vec<u32>> {
    let mut tally: BTreeMap<Name, Vec<u32>> = BTreeMap::new();
    for i in 0..replica.settings().n() {
        if let Some(name) = rows.row(view).get(i as u16) {
            tally.entry(*name).or_default().push(i);
        }
    }
    tally
}

fn rule_c(replica: &Replica) -> Option<Rule> {
    for view in views(replica, 4) {
        for (name, signers) in tally(replica, &replica.memory.votes, view) {
            let certificate = Certificate::block(view, name, signers.iter().map(|i| 1u64 << i).sum());
            let enough = signers.len() as u32 >= replica.protocol().quorums.block;
            if enough && certificate.outranks(&replica.counters.lock) {
                return Some(Rule::C(certificate));
            }
        }
    }
    None
}

fn rule_d(replica: &Replica) -> Option<Rule> {
    let quorums = replica.protocol().quorums;
    for view in views(replica, 4) {
        let votes = tally(replica, &replica.memory.votes, view);
        let commits = tally(replica, &replica.memory.commits, view);
        let fast = votes.iter().filter(|(_, by)| by.len() as u32 >= quorums.fast);
        let slow = commits.iter().filter(|(_, by)| by.len() as u32 >= quorums.slow);
        let names: BTreeSet<Name> = fast.chain(slow).map(|(name, _)| *name).collect();
        for name in names {
            if name == replica.counters.tip.name {
                continue;
            }
            if let Some(blocks) = replica.held(&name).and_then(|block| above_tip(replica, block)) {
                return Some(Rule::D(view, blocks));
            }
        }
    }
    None
}

/// The blocks above the tip up to this one; none if the way down doesn't end at the tip.
fn above_tip(replica: &Replica, block: Block) -> Option<Vec<Block>> {
    let parent = replica.held(&block.parent)?;
    if parent.height >= block.height {
        return None;
    }
    let mut blocks = match parent.name == replica.counters.tip.name {
        true => Vec::new(),
        false => above_tip(replica, parent)?,
    };
    blocks.push(block);
    Some(blocks)
}

fn release(replica: &mut Replica, view: View, blocks: &[Block], out: &mut Vec<u8>) {
    for block in blocks {
        wire::write_release(out, replica.own(), view, block.name, block.height);
    }
    replica.counters.tip = *blocks.last().unwrap();
    let before = replica.memory.store.blocks().to_vec();
    let kept: Vec<Block> = before.into_iter().filter(|block| above_tip(replica, *block).is_some()).collect();
    replica.memory.store.clear();
    for block in kept {
        replica.memory.store.push(block);
    }
}
