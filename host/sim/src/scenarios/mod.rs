//! Scripted runs to two chains. At most one replica is Byzantine, and every record keeps to the premises of 01's "A run
//! of the ring".
//!
//! Each script is played twice: with the error built into the honest replicas it ends in two chains, without it in
//! one. Where a call is refused (the replica knows better) the script just goes on. The leader of view v is replica
//! (v − 1) mod n. Names are compared byte by byte, A < B < C; where two certificates are otherwise equal the smaller name
//! ranks above, so in some scripts the released block has to be B and the other one A.

mod six;
mod ten;

use oracle::{Faults, Name, Protocol, Settings, GENESIS};

use crate::core::Core;
use crate::script::*;
use crate::settings;

pub use six::resume;

const A: Name = [b'A'; 32];
const B: Name = [b'B'; 32];
const C: Name = [b'C'; 32];
const D: Name = [b'D'; 32];
const E: Name = [b'E'; 32];
const F: Name = [b'F'; 32];

/// Two replicas with their rows of releases at the end, each block by its letter.
pub type Ends = [(usize, &'static str); 2];

/// A script, with the error by which it gives two chains.
pub struct Scenario<K: Core> {
    pub name: &'static str,
    /// A name of the oracle's flags.
    pub fault: &'static str,
    pub settings: Settings,
    pub byzantine: &'static [usize],
    pub play: fn(&mut Script<K>),
    /// The end with the error: two chains.
    pub wrong: Ends,
    /// The end without it: one chain.
    pub right: Ends,
}

/// All scripts: those of the cluster of six, then those of the cluster of ten.
pub fn all<K: Core>() -> Vec<Scenario<K>> {
    let mut all = six::all();
    all.extend(ten::all());
    all
}

/// Plays a scenario over replicas that are opened with `options` and so make these errors.
pub fn play<K: Core>(scenario: &Scenario<K>, options: K::Options, faults: Faults) -> Script<K> {
    let mut script = Script::open(options, Protocol::new(scenario.settings, faults), scenario.byzantine);
    (scenario.play)(&mut script);
    script
}

/// A Byzantine leader of view 1 shows these replicas a block on genesis.
fn show<K: Core>(s: &mut Script<K>, name: Name, to: &[usize]) {
    s.lie(&proposal(0, 1, &block(name, GENESIS, 1), &genesis_certificate()), to);
}

/// Hands a block on genesis over by itself, as a host does for a replica that asks for it.
fn give<K: Core>(s: &mut Script<K>, name: Name, to: &[usize]) {
    s.block(block(name, GENESIS, 1), to);
}

/// The leader of a view proposes and the voters hear it; then the whole way to a slow release at the leader.
fn lead<K: Core>(s: &mut Script<K>, leader: usize, view: u64, name: Name, voters: &[usize]) {
    s.propose(leader, name);
    s.proposal(leader, view, voters);
    decide(s, view, leader, voters);
}

/// One replica hears the others' votes, sends the block certificate round, and hears their commits.
fn decide<K: Core>(s: &mut Script<K>, view: u64, one: usize, others: &[usize]) {
    s.votes(others, view, &[one]);
    s.certificate(one, view, others);
    s.commits(others, view, &[one]);
}
