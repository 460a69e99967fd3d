//! The fewest calls that show a difference, and how they are replayed.

use oracle::lent::Rooms;
use oracle::Faults;

use crate::difference::Difference;
use crate::pair::Pair;
use crate::run::{Mismatch, Run};
use crate::step::Step;

/// Drops calls, many at a time and then one by one, as long as the rest still shows a difference.
pub fn shortest(run: Run, steps: Vec<Step>, faults: Faults) -> Box<Mismatch> {
    let start = run.start();
    let (mut steps, mut difference) = until_difference(&start, steps, faults).expect("steps that show a difference");
    let mut chunk = steps.len() / 2;
    while chunk > 0 {
        let mut at = steps.len();
        while at > 0 {
            at = at.saturating_sub(chunk).min(steps.len());
            let rest = [&steps[..at], &steps[(at + chunk).min(steps.len())..]].concat();
            if let Some(shorter) = until_difference(&start, rest, faults) {
                (steps, difference) = shorter;
            }
        }
        chunk /= 2;
    }
    Box::new(Mismatch { run, steps, difference })
}

/// Replays what a mismatch printed; the difference, or none if there is none any more.
pub fn replay(text: &str, faults: Faults) -> Result<Option<Mismatch>, String> {
    let mut lines = text.lines().filter(|line| !line.is_empty() && !line.starts_with('#'));
    let run: Run = lines.next().ok_or("no line")?.parse()?;
    let steps = lines.map(str::parse).collect::<Result<Vec<Step>, String>>()?;
    let found = until_difference(&run.start(), steps, faults);
    Ok(found.map(|(steps, difference)| Mismatch { run, steps, difference }))
}

/// The steps up to the first difference, none if there is none.
fn until_difference(start: &Rooms, mut steps: Vec<Step>, faults: Faults) -> Option<(Vec<Step>, Difference)> {
    let mut pair = Pair::new(start.clone(), faults);
    let (last, difference) = steps.iter().enumerate().find_map(|(i, step)| Some((i, pair.step(step).err()?)))?;
    steps.truncate(last + 1);
    Some((steps, difference))
}
