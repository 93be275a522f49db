//! Random numbers from a seed: the same seed gives the same numbers everywhere.

use std::ops::RangeInclusive;

/// The generator splitmix64 (Steele, Lea and Flood, 2014).
#[derive(Clone, Debug)]
pub struct Random {
    state: u64,
}

impl Random {
    /// The numbers of one stream of a seed. Streams of one seed have nothing in common.
    pub fn new(seed: u64, stream: u64) -> Random {
        let mut seeds = Random { state: seed };
        let state = seeds.number() ^ stream.wrapping_mul(0xD134_2543_DE82_EF95);
        let mut random = Random { state };
        random.number();
        random
    }

    /// Any number.
    pub fn number(&mut self) -> u64 {
        self.state = self.state.wrapping_add(0x9E37_79B9_7F4A_7C15);
        let mixed = (self.state ^ (self.state >> 30)).wrapping_mul(0xBF58_476D_1CE4_E5B9);
        let mixed = (mixed ^ (mixed >> 27)).wrapping_mul(0x94D0_49BB_1331_11EB);
        mixed ^ (mixed >> 31)
    }

    /// A number below the end, which is not 0.
    pub fn below(&mut self, end: u64) -> u64 {
        self.number() % end
    }

    /// A number of the range, which is not empty and not all numbers.
    pub fn within(&mut self, range: RangeInclusive<u64>) -> u64 {
        range.start() + self.below(range.end() - range.start() + 1)
    }

    /// True in so many cases of a hundred.
    pub fn chance(&mut self, percent: u64) -> bool {
        self.below(100) < percent
    }

    /// Any byte.
    pub fn byte(&mut self) -> u8 {
        self.below(256) as u8
    }

    /// An index of a list with this length, which is not 0.
    pub fn index(&mut self, length: usize) -> usize {
        self.below(length as u64) as usize
    }

    /// One item of a list that is not empty.
    pub fn pick<T: Copy>(&mut self, items: &[T]) -> T {
        items[self.index(items.len())]
    }

    /// One item, if there is one.
    pub fn choose<T: Copy>(&mut self, items: &[T]) -> Option<T> {
        (!items.is_empty()).then(|| self.pick(items))
    }

    /// One item, early ones more often, if there is one.
    pub fn choose_early<T: Copy>(&mut self, items: &[T]) -> Option<T> {
        let early = items.len().min(4);
        if self.chance(60) {
            self.choose(&items[..early])
        } else {
            self.choose(items)
        }
    }
}
