//! Chance that comes from a seed alone, so that a script can be made again.

/// Splitmix64.
#[derive(Clone, Debug)]
pub struct Dice {
    state: u64,
}

impl Dice {
    pub fn new(seed: u64) -> Dice {
        Dice { state: seed }
    }

    pub fn roll(&mut self) -> u64 {
        self.state = self.state.wrapping_add(0x9e37_79b9_7f4a_7c15);
        let mut mixed = self.state;
        mixed = (mixed ^ (mixed >> 30)).wrapping_mul(0xbf58_476d_1ce4_e5b9);
        mixed = (mixed ^ (mixed >> 27)).wrapping_mul(0x94d0_49bb_1331_11eb);
        mixed ^ (mixed >> 31)
    }

    /// A number below `end`; 0 if there is none.
    pub fn below(&mut self, end: usize) -> usize {
        let product = u128::from(self.roll()) * end as u128;
        (product >> 64) as usize
    }

    /// A number from `least` to `most`, both included.
    pub fn between(&mut self, least: usize, most: usize) -> usize {
        least + self.below((most + 1).saturating_sub(least))
    }

    pub fn chance(&mut self, percent: usize) -> bool {
        self.below(100) < percent
    }

    pub fn octet(&mut self) -> u8 {
        self.roll() as u8
    }

    pub fn octets(&mut self, count: usize) -> Vec<u8> {
        (0..count).map(|_| self.octet()).collect()
    }

    /// One of these, if there are any.
    pub fn pick<Thing: Copy>(&mut self, things: &[Thing]) -> Option<Thing> {
        things.get(self.below(things.len())).copied()
    }

    /// One of these, of which there is at least one.
    pub fn any_of<Thing: Copy, const COUNT: usize>(&mut self, things: [Thing; COUNT]) -> Thing {
        things[self.below(COUNT)]
    }

    /// One of these by weight.
    pub fn by_weight<Thing: Copy>(&mut self, table: &[(usize, Thing)]) -> Option<Thing> {
        let mut left = self.below(table.iter().map(|(weight, _)| weight).sum());
        for &(weight, thing) in table {
            if left < weight {
                return Some(thing);
            }
            left -= weight;
        }
        None
    }

    pub fn shuffle<Thing>(&mut self, things: &mut [Thing]) {
        for index in (1..things.len()).rev() {
            things.swap(index, self.below(index + 1));
        }
    }
}
