//! How times grow with the cluster.

use crate::held::KINDS;
use crate::life::Life;
use crate::measure::{Mark, Script, Times};
use crate::table::{Row, Table};

/// Clusters of 6, 9, 13, 18, 24 and 32.
pub const SETTINGS: [(u64, u64, u64); 6] = [(1, 1, 0), (2, 1, 0), (2, 2, 2), (4, 2, 1), (5, 4, 0), (7, 5, 0)];

/// Views that go well, every fourth times out; the first four aren't timed. A mean over the accepted calls of a kind.
pub fn measure(rounds: usize) -> Table {
    let cases = SETTINGS.map(|settings| (0..12).map(|seed| script(settings, seed)).collect::<Vec<Script>>());
    let mut rows = Vec::new();
    for (case, times) in cases.iter().zip(Times::measure(&cases, rounds)) {
        for kind in KINDS {
            let labels = vec![case[0].opening.n.to_string(), format!("{kind:?}")];
            let mean = times.mean(|mark| mark == Mark::Accepted(kind)).expect("such calls are made");
            rows.push(Row { labels, times: mean });
        }
    }
    let title = "a cluster at work, three views of four go well: an accepted call".to_string();
    Table { name: "size", title, columns: &["n", "call"], against: "oracle", rows }
}

/// The calls of one run; names follow from the seed.
pub fn script(settings: (u64, u64, u64), seed: u64) -> Script {
    let mut life = Life::new(settings, seed);
    for view in 1..=16 {
        life.timed = view > 4;
        if view % 4 == 0 {
            life.time_out();
        } else {
            life.release();
        }
    }
    life.script()
}
