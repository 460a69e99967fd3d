//! Deliberate errors, all off by default: 01's missteps, quorums one too low, though never 0, and wrong readings of 02, 2.5.

use crate::misreading::Misreading;

/// Which errors a replica makes. 01: "Missteps by which two chains arise".
#[derive(Clone, Copy, Debug, Default, PartialEq, Eq)]
pub struct Faults {
    /// "p rounded from c+k+2: weak certificates go missed."
    pub p_from_c_k_2: bool,
    /// "A weak certificate placed over a block certificate of its own view."
    pub weak_over_block: bool,
    /// "High votes left out, only carried certificates compared."
    pub high_votes_left_out: bool,
    /// "A vote .. in view v after a timeout for v."
    pub vote_after_timeout: bool,
    /// "A .. commit in view v after a timeout for v."
    pub commit_after_timeout: bool,
    /// "A vote that doesn't adopt the safe certificate": no proposal's certificate is adopted.
    pub safe_not_adopted: bool,
    pub block_quorum_lower: bool,
    pub weak_quorum_lower: bool,
    pub timeout_quorum_lower: bool,
    pub slow_quorum_lower: bool,
    pub fast_quorum_lower: bool,
    /// How contents are misread, if they are.
    pub misreading: Option<Misreading>,
}

impl Faults {
    pub const NONE: Faults = Faults {
        p_from_c_k_2: false,
        weak_over_block: false,
        high_votes_left_out: false,
        vote_after_timeout: false,
        commit_after_timeout: false,
        safe_not_adopted: false,
        block_quorum_lower: false,
        weak_quorum_lower: false,
        timeout_quorum_lower: false,
        slow_quorum_lower: false,
        fast_quorum_lower: false,
        misreading: None,
    };

    /// The names under which `set` knows the flags. A misreading has none: the run program takes no contents.
    pub const NAMES: [&'static str; 11] = [
        "p-from-c-k-2",
        "weak-over-block",
        "high-votes-left-out",
        "vote-after-timeout",
        "commit-after-timeout",
        "safe-not-adopted",
        "block-quorum-lower",
        "weak-quorum-lower",
        "timeout-quorum-lower",
        "slow-quorum-lower",
        "fast-quorum-lower",
    ];

    /// Turns the named flag on; false if there is none of that name.
    pub fn set(&mut self, name: &str) -> bool {
        let flag = match name {
            "p-from-c-k-2" => &mut self.p_from_c_k_2,
            "weak-over-block" => &mut self.weak_over_block,
            "high-votes-left-out" => &mut self.high_votes_left_out,
            "vote-after-timeout" => &mut self.vote_after_timeout,
            "commit-after-timeout" => &mut self.commit_after_timeout,
            "safe-not-adopted" => &mut self.safe_not_adopted,
            "block-quorum-lower" => &mut self.block_quorum_lower,
            "weak-quorum-lower" => &mut self.weak_quorum_lower,
            "timeout-quorum-lower" => &mut self.timeout_quorum_lower,
            "slow-quorum-lower" => &mut self.slow_quorum_lower,
            "fast-quorum-lower" => &mut self.fast_quorum_lower,
            _ => return false,
        };
        *flag = true;
        true
    }
}
