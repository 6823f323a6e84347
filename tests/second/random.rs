// Random numbers from a seed, by the splitmix method, so that a run can be repeated.

pub struct Random {
    state: u64,
}

/// An odd number with bits in no order.
pub const STEP: u64 = 0x9e37_79b9_7f4a_7c15;

/// A number's bits stirred; different numbers stay different.
pub fn mix(number: u64) -> u64 {
    let first = (number ^ (number >> 30)).wrapping_mul(0xbf58_476d_1ce4_e5b9);
    let second = (first ^ (first >> 27)).wrapping_mul(0x94d0_49bb_1331_11eb);
    second ^ (second >> 31)
}

impl Random {
    pub fn new(seed: u64) -> Random {
        Random { state: seed }
    }

    /// The generator of one ask: it depends on the run's seed and the ask's number alone.
    pub fn of_ask(seed: u64, number: u64) -> Random {
        Random::new(mix(mix(seed).wrapping_add(number.wrapping_mul(STEP))))
    }

    pub fn next(&mut self) -> u64 {
        self.state = self.state.wrapping_add(STEP);
        mix(self.state)
    }

    /// From 0 to `limit` - 1; the limit is at least 1.
    pub fn below(&mut self, limit: usize) -> usize {
        (self.next() % limit as u64) as usize
    }

    /// From `low` to `high`, both included; `low` alone if `high` is less.
    pub fn between(&mut self, low: u32, high: u32) -> u32 {
        let width = u64::from(high.saturating_sub(low)) + 1;
        low + (self.next() % width) as u32
    }

    /// True `part` times of 100.
    pub fn chance(&mut self, part: u32) -> bool {
        self.below(100) < part as usize
    }

    pub fn pick<T: Copy>(&mut self, choices: &[T]) -> T {
        choices[self.below(choices.len())]
    }

    pub fn shuffle<T>(&mut self, list: &mut [T]) {
        for place in (1..list.len()).rev() {
            list.swap(place, self.below(place + 1));
        }
    }
}
