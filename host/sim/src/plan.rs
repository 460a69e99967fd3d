//! Many random runs, each from its own seed.

use oracle::{Faults, Leaders, Protocol, Settings};

use crate::chain::Violation;
use crate::cluster::Cluster;
use crate::core::Core;
use crate::coverage::{Coverage, Row};
use crate::naming::Naming;
use crate::network::Run;
use crate::random::Random;
use crate::rounds::Rounds;
use crate::settings;

/// Which way the runs are drawn.
#[derive(Clone, Copy, Debug, PartialEq, Eq)]
pub enum Style {
    /// By turns a busy network and rounds.
    Both,
    Network,
    Rounds,
    /// Rounds in which hosts resume from old states. That breaks the premises: two chains are to be found.
    OldStates,
}

/// How the blocks of the runs get their names.
#[derive(Clone, Copy, Debug, PartialEq, Eq)]
pub enum Names {
    /// Each run draws one of the two.
    Both,
    Invented,
    /// Every block comes with its contents.
    ByContents,
}

/// Runs until so many calls are made.
pub struct Plan<C: Core> {
    pub options: C::Options,
    /// The errors of replicas that are opened with these options.
    pub faults: Faults,
    /// Each run draws one of them.
    pub settings: Vec<Settings>,
    /// The leader list of all runs; each draws its own if there is none.
    pub leaders: Option<Leaders>,
    pub seed: u64,
    pub calls: u64,
    /// The most calls of one run; if there is none, 400 for each replica: a view takes more calls in a larger cluster.
    pub longest: Option<u64>,
    pub style: Style,
    pub names: Names,
}

/// A run that broke the claim: its settings, seed and style, how many calls all runs took so far, and how it broke.
#[derive(Clone, Copy, Debug)]
pub struct Failure {
    pub settings: Settings,
    pub seed: u64,
    pub style: Style,
    pub calls: u64,
    pub violation: Violation,
}

/// Takes a run's figures over; the slow look at all pairs of rows agrees with the look at each release.
fn conclude<C: Core>(cluster: &Cluster<C>, coverage: &mut Coverage) -> (u64, Option<Violation>) {
    assert!(cluster.violation().is_some() || cluster.rows().is_one_chain());
    coverage.merge(&cluster.coverage);
    (cluster.calls(), cluster.violation())
}

impl<C: Core> Plan<C> {
    /// Plays all runs, or up to the first failure. Gives the number of calls.
    pub fn play(&self, coverage: &mut Coverage) -> Result<u64, Failure> {
        let mut random = Random::new(self.seed);
        let mut calls = 0;
        while calls < self.calls {
            let seed = random.number();
            // From numbers of their own: what the run draws doesn't follow from its size.
            let settings = settings::draw(&self.settings, &mut Random::new(!seed));
            let longest = self.longest.unwrap_or(400 * u64::from(settings.n()));
            let length = random.between(longest / 20 + 1, longest).min(self.calls - calls);
            let style = match self.style {
                Style::Both if random.chance(500) => Style::Network,
                Style::Both => Style::Rounds,
                style => style,
            };
            let (made, violation) = self.play_one(settings, style, seed, length, coverage);
            calls += made;
            if let Some(violation) = violation {
                return Err(Failure { settings, seed, style, calls, violation });
            }
        }
        Ok(calls)
    }

    fn play_one(
        &self,
        settings: Settings,
        style: Style,
        seed: u64,
        length: u64,
        coverage: &mut Coverage,
    ) -> (u64, Option<Violation>) {
        coverage.add(Row::Runs, 1);
        let protocol = Protocol::new(settings, self.faults);
        let naming = self.naming(seed);
        if style != Style::Network {
            let old_states = style == Style::OldStates;
            let mut run: Rounds<C> = Rounds::new(self.options, protocol, self.leaders, naming, seed, old_states);
            run.play(length);
            conclude(run.cluster(), coverage)
        } else {
            let mut run: Run<C> = Run::new(self.options, protocol, self.leaders, naming, seed);
            run.play(length);
            conclude(run.cluster(), coverage)
        }
    }

    /// Drawn from numbers of its own, as the settings are: a run with invented names is what it was before contents.
    fn naming(&self, seed: u64) -> Naming {
        let is_drawn = Random::new(seed.rotate_left(32)).chance(500);
        match self.names {
            Names::Invented => Naming::Invented,
            Names::ByContents => Naming::by_contents(),
            Names::Both if is_drawn => Naming::by_contents(),
            Names::Both => Naming::Invented,
        }
    }
}
