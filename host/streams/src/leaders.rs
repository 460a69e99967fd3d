//! Leader lists for openings, and the views that a replica leads by one.

use oracle::{Leaders, Replica, Settings, View};

use crate::opening::Opening;
use crate::random::Random;

impl Opening {
    /// The same with a list: often 0 to n−1, else of any length, with repeats and gaps. The own number stands in it as
    /// often as others, more often, or never.
    pub fn led(self, random: &mut Random) -> Opening {
        if random.chance(40) {
            return self;
        }
        let any = random.between(1, Leaders::MOST as u64);
        let length = random.pick(&[1, 2, self.n, any, any, Leaders::MOST as u64]);
        let own_share = random.pick(&[0, 100 / self.n, 50, 90]);
        let list: Vec<u8> = (0..length).map(|_| self.entry(own_share, random)).collect();
        Opening { leaders: Leaders::new(&list, self.settings()).expect("a list that is taken"), ..self }
    }

    /// The own number in so many of a hundred cases, else another; there is none in a cluster of one.
    fn entry(&self, own_share: u64, random: &mut Random) -> u8 {
        let own = self.n == 1 || random.chance(own_share);
        let after = if own { 0 } else { random.between(1, self.n - 1) };
        ((self.own + after) % self.n) as u8
    }

    /// A list that refusal 1 turns away: empty, longer, or with an entry that is no replica's.
    pub fn spoilt_list(&self, random: &mut Random) -> Vec<u8> {
        let mut list = self.leaders.list().to_vec();
        match random.below(4) {
            0 => list.clear(),
            1 => {
                let longer = random.pick(&[65, 65, 66, 256, 257, 320]); // 0, 1 and 64 in their low bytes
                list = list.into_iter().cycle().take(longer).collect();
            }
            _ => {
                let entry = random.index(list.len());
                list[entry] = random.pick(&[self.n as u8, self.n as u8 + 1, 128, u8::MAX]);
            }
        }
        list
    }

    /// Whether the list is 0 to n−1.
    pub fn is_in_turn(&self) -> bool {
        self.leaders == Leaders::in_turn(self.settings())
    }

    fn settings(&self) -> Settings {
        Settings::new(self.f, self.c, self.k).expect("settings that are taken")
    }
}

/// The first view from this one on that the replica leads; none if it never does.
pub fn next_led(replica: &Replica, from: u64) -> Option<u64> {
    views_round(from).find(|&view| replica.leader(View(view)) == replica.own())
}

/// The first view from this one on that another leads; none if the replica always does.
pub fn next_not_led(replica: &Replica, from: u64) -> Option<u64> {
    views_round(from).find(|&view| replica.leader(View(view)) != replica.own())
}

/// So many that any list goes round.
fn views_round(from: u64) -> impl Iterator<Item = u64> {
    from..from + Leaders::MOST as u64
}
