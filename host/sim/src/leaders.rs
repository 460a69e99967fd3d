//! Leader lists for random runs.

use oracle::{Leaders, Settings};

use crate::coverage::{Coverage, Row};
use crate::random::Random;

/// A list for a run: often 0 to n−1; else of any length, with repeats, of all replicas, of some, or mostly of the liars.
pub fn draw(settings: Settings, liars: u64, random: &mut Random) -> Leaders {
    let everyone = settings.everyone();
    let (set, favoured) = match random.below(5) {
        0 | 1 => return Leaders::in_turn(settings),
        2 => (everyone, 0),
        3 => (random.part(everyone), 0),
        _ => (everyone, liars),
    };
    let set = if set == 0 { everyone } else { set };
    let favoured = if favoured == 0 { set } else { favoured };
    let longest = *random.pick(&[8, Leaders::MOST]).expect("lengths");
    let length = 1 + random.below(longest);
    let list: Vec<u8> = (0..length).map(|_| entry(set, favoured, random)).collect();
    Leaders::new(&list, settings).expect("a list that is taken")
}

/// Mostly one of the favoured.
fn entry(set: u64, favoured: u64, random: &mut Random) -> u8 {
    let set = if random.chance(800) { favoured } else { set };
    random.part_of(set, 1).trailing_zeros() as u8
}

/// Counts what is particular about a list.
pub fn note(leaders: &Leaders, settings: Settings, honest: u64, coverage: &mut Coverage) {
    let list = leaders.list();
    let leading = list.iter().fold(0u64, |set, number| set | 1 << number);
    let liars = list.iter().filter(|&&number| honest >> number & 1 == 0).count();
    coverage.add(Row::LedInTurn, u64::from(*leaders == Leaders::in_turn(settings)));
    coverage.add(Row::LedTwice, u64::from((leading.count_ones() as usize) < list.len()));
    coverage.add(Row::NeverLeads, u64::from(honest & !leading != 0));
    coverage.add(Row::LiarsLead, u64::from(2 * liars > list.len()));
}
