//! Every view times out.

use crate::life::Life;
use crate::measure::{Mark, Script, Times};
use crate::table::{Row, Table};

const VIEWS: usize = 40;
const SEEDS: u64 = 5;

/// One view change: all others' timeouts of a view are handed in, its certificate is formed, the next view is entered. The
/// first view went well; every timeout has its vote and its certificate.
pub fn measure(rounds: usize) -> Table {
    let clusters = [(1, 1, 0), (2, 2, 2), (7, 5, 0)];
    let cases = clusters.map(|settings| (0..SEEDS).map(|seed| script(settings, seed)).collect::<Vec<Script>>());
    let rows = cases.iter().zip(Times::measure(&cases, rounds)).map(|(case, times)| row(case[0].opening.n, &times));
    let title = "every view times out: one view change, all timeouts of a view together".to_string();
    Table { name: "timeouts", title, columns: &["n", "accepted", "refused"], against: "oracle", rows: rows.collect() }
}

/// How many timeouts a view change takes, and what they take together.
fn row(n: u64, times: &Times) -> Row {
    let each = |asked: fn(Mark) -> bool| times.count(asked) / (SEEDS as usize * VIEWS);
    let accepted = each(|mark| matches!(mark, Mark::Accepted(_)));
    let refused = each(|mark| matches!(mark, Mark::Refused(_)));
    let mean = times.mean(|_| true).expect("timeouts are handed in");
    let labels = vec![n.to_string(), accepted.to_string(), refused.to_string()];
    Row { labels, times: mean.map(|time| time * (accepted + refused) as f64) }
}

fn script(settings: (u64, u64, u64), seed: u64) -> Script {
    let mut life = Life::new(settings, seed);
    life.release();
    life.timed = true;
    (0..VIEWS).for_each(|_| life.time_out());
    life.script()
}
