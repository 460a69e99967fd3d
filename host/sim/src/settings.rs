//! The settings that opening takes, by families: what can happen in a cluster differs between them.

use oracle::Settings;

use crate::random::Random;

/// The cluster of one, in which every quorum is 1.
pub fn one() -> Settings {
    of(0, 0, 0)
}

/// The cluster of six, 01's example.
pub fn six() -> Settings {
    of(1, 1, 0)
}

/// The cluster of ten, which 000 measures in Section 6.
pub fn ten() -> Settings {
    of(1, 2, 2)
}

fn of(f: u64, c: u64, k: u64) -> Settings {
    Settings::new(f, c, k).expect("settings that are taken")
}

/// One of some settings. Each n that comes up is as likely as another, or nearly all would have more than ten replicas.
pub fn draw(settings: &[Settings], random: &mut Random) -> Settings {
    let mut sizes: Vec<u32> = settings.iter().map(|settings| settings.n()).collect();
    sizes.sort();
    sizes.dedup();
    let n = *random.pick(&sizes).expect("settings to draw from");
    let of_n: Vec<Settings> = settings.iter().copied().filter(|settings| settings.n() == n).collect();
    *random.pick(&of_n).expect("settings of this n")
}

/// Each settings is of one family.
#[derive(Clone, Copy, Debug, PartialEq, Eq)]
pub enum Family {
    /// The cluster of ten alone.
    Ten,
    /// f = 0: nobody lies. The cluster of one is among them.
    NobodyLies,
    /// f ≥ 1, and k keeps to the bound of 000's Theorem 1, which 01 had and 02's 2.2 takes away.
    InBound,
    /// f ≥ 1, and k is above it.
    AboveBound,
}

impl Family {
    pub const ALL: [Family; 4] = [Family::Ten, Family::NobodyLies, Family::InBound, Family::AboveBound];

    pub fn of(settings: Settings) -> Family {
        if settings == ten() {
            Family::Ten
        } else if settings.f() == 0 {
            Family::NobodyLies
        } else if settings.is_above_bound() {
            Family::AboveBound
        } else {
            Family::InBound
        }
    }

    pub fn settings(self) -> Vec<Settings> {
        Settings::all().into_iter().filter(|settings| Family::of(*settings) == self).collect()
    }

    pub fn words(self) -> &'static str {
        match self {
            Family::Ten => "the cluster of ten",
            Family::NobodyLies => "f = 0",
            Family::InBound => "f ≥ 1, k in Theorem 1's bound",
            Family::AboveBound => "f ≥ 1, k above it",
        }
    }
}
