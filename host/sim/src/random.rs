//! Random draws for runs: the same seed gives the same run on every machine.

/// The numbers are those of the streams.
#[derive(Clone, Debug)]
pub struct Random(streams::Random);

impl Random {
    pub fn new(seed: u64) -> Self {
        Random(streams::Random::new(seed))
    }

    pub fn number(&mut self) -> u64 {
        self.0.number()
    }

    /// A number below `bound`, which is at least 1.
    pub fn below(&mut self, bound: usize) -> usize {
        ((u128::from(self.number()) * bound as u128) >> 64) as usize
    }

    /// A number from `low` to `high`, both included.
    pub fn between(&mut self, low: u64, high: u64) -> u64 {
        low + self.below((high - low + 1) as usize) as u64
    }

    /// True `parts` times in a thousand.
    pub fn chance(&mut self, parts: u32) -> bool {
        self.below(1000) < parts as usize
    }

    pub fn pick<'a, T>(&mut self, list: &'a [T]) -> Option<&'a T> {
        if list.is_empty() {
            None
        } else {
            Some(&list[self.below(list.len())])
        }
    }

    /// A random part of a set of replicas.
    pub fn part(&mut self, set: u64) -> u64 {
        set & self.number()
    }

    /// A random part of a set with `count` members, or the whole set if it has fewer.
    pub fn part_of(&mut self, set: u64, count: u32) -> u64 {
        let mut part = set;
        while part.count_ones() > count {
            part &= !(1 << self.below(64));
        }
        part
    }

    pub fn shuffle<T>(&mut self, list: &mut [T]) {
        for place in (1..list.len()).rev() {
            list.swap(place, self.below(place + 1));
        }
    }

    pub fn name(&mut self) -> [u8; 32] {
        let mut name = [0; 32];
        for chunk in name.chunks_exact_mut(8) {
            chunk.copy_from_slice(&self.number().to_le_bytes());
        }
        name
    }
}
