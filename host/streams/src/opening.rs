//! Openings: settings from all that are taken, and five numbers that are refused.

use oracle::{Leaders, Replica, Settings};

use crate::random::Random;

/// Settings that half of the seeded openings have: 01's three, 02's ten and eight replicas, others with f = 0 or k > 0; then
/// clusters of one to four, and the highest k.
const SETTINGS: [(u64, u64, u64); 14] = [
    (1, 1, 0),
    (2, 2, 2),
    (7, 5, 0),
    (1, 2, 2),
    (2, 0, 1),
    (0, 4, 0),
    (0, 3, 0),
    (2, 3, 2),
    (3, 4, 1),
    (0, 0, 0),
    (0, 0, 1),
    (0, 1, 0),
    (1, 0, 0),
    (0, 0, 31),
];

const MAX_N: u64 = Settings::MAX_N as u64;

/// The five numbers of an opening, and its leader list.
#[derive(Clone, Copy, Debug, PartialEq, Eq)]
pub struct Opening {
    pub f: u64,
    pub c: u64,
    pub k: u64,
    pub n: u64,
    pub own: u64,
    pub leaders: Leaders,
}

impl Opening {
    /// None where the settings or the own number are refused. The list is 0 to n−1.
    pub fn new(f: u64, c: u64, k: u64, own: u64) -> Option<Opening> {
        let settings = Settings::new(f, c, k)?;
        let n = u64::from(settings.n());
        (own < n).then_some(Opening { f, c, k, n, own, leaders: Leaders::in_turn(settings) })
    }

    /// One of `SETTINGS` or any, and any own number. The list is 0 to n−1, the one that the run program opens with.
    pub fn seeded(seed: u64) -> Opening {
        let mut random = Random::new(seed ^ 0x6F70_656E);
        if random.chance(50) {
            return Opening::any(&mut random);
        }
        let (f, c, k) = random.pick(&SETTINGS);
        let n = 3 * f + 2 * c + k + 1;
        Opening::new(f, c, k, random.below(n)).expect("good settings")
    }

    /// The same with a list that follows from the seed too.
    pub fn seeded_led(seed: u64) -> Opening {
        Opening::seeded(seed).led(&mut Random::new(seed ^ 0x006C_6561_6473))
    }

    /// Any settings that are taken, clusters of each size alike, and any own number.
    pub fn any(random: &mut Random) -> Opening {
        let n = random.between(1, MAX_N);
        let f = random.between(0, (n - 1) / 3);
        let c = random.between(0, (n - 1 - 3 * f) / 2);
        let k = n - 1 - 3 * f - 2 * c;
        Opening::new(f, c, k, random.below(n)).expect("good settings")
    }

    pub fn open(&self) -> Replica {
        let [f, c, k, n, own] = self.numbers();
        Replica::open(f, c, k, n, own, self.leaders.list()).expect("settings and a list that opening takes")
    }

    /// f, c, k, n and own.
    pub fn numbers(&self) -> [u64; 5] {
        [self.f, self.c, self.k, self.n, self.own]
    }

    /// Five numbers of so many bits that refusal 1 turns away.
    pub fn spoilt_numbers(&self, bits: u32, random: &mut Random) -> [u64; 5] {
        let [f, c, k, n, own] = self.numbers();
        let last = u64::MAX >> (64 - bits);
        match random.below(4) {
            0 => [f, c, k, random.pick(&[0, n - 1, n + 1, last]), own],
            1 => [f, c, k, n, random.pick(&[n, n + 1, last])],
            _ => self.spoilt_sum(bits, random),
        }
    }

    /// The same with a sum 3f+2c+k+1 over 32: just over it, or one that is at most 32 only where it wraps round. n is that.
    pub fn spoilt_sum(&self, bits: u32, random: &mut Random) -> [u64; 5] {
        let [f, c, k, n, own] = self.numbers();
        let last = u64::MAX >> (64 - bits);
        match random.below(6) {
            0 => [f + last / 3 + 1, c, k, n + 2, own], // 3 · (last / 3 + 1) is last + 3
            1 => [f, c + last / 2 + 1, k, n, own],
            2 => [f, c, last, 3 * f + 2 * c, own],
            place => self.too_many(place as usize - 3),
        }
    }

    /// The same with so much more of f, c or k that n is just over 32.
    fn too_many(&self, place: usize) -> [u64; 5] {
        let mut numbers = self.numbers();
        let weight = [3, 2, 1][place];
        let more = (MAX_N - self.n) / weight + 1;
        numbers[place] += more;
        numbers[3] += weight * more;
        numbers
    }
}
