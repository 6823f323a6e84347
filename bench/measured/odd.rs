// Small days, half of them with something wrong, for the check of the ways against each other.
use crate::calls::SCRATCH;
use crate::days::Day;
use crate::random::Random;

// A small day and the lengths of the lists that are lent with it.
pub struct Odd {
    pub day: Day,
    pub out: usize,
    pub scratch: usize,
}

pub fn odd(seed: u64) -> Odd {
    let mut random = Random::new(seed);
    for _ in 0..8 {
        random.below(2);
    }
    let n = 2 + random.below(5);
    let mut day = sound(&mut random, n);
    let (mut out, mut scratch) = ((n * n) as usize + 3, SCRATCH + 3);
    match random.below(24) {
        0 => day.n = [0, 257][random.below(2) as usize],
        1 => day.asker = 256,
        2 => (day.a, day.w) = (day.w + 1, day.a),
        3 => day.w = 259_201,
        4 => (day.source, day.target) = (n, n),
        5 => day.pivots.truncate(31),
        6 => day.pivots.extend([0, day.a]),
        7 => day.pivots[8] = n,
        8 => day.pivots[9] = day.w + 1,
        9 => out = n as usize - 1,
        10 => scratch = SCRATCH - 1,
        11 if !day.list.is_empty() => day.list.truncate(day.list.len() - 1),
        12 => day.list = vec![0; 5 * 2049],
        _ => spoil(&mut day.list, &mut random),
    }
    Odd { day, out, scratch }
}

// A day of few stops, with times so close that changes are often just made or just missed.
fn sound(random: &mut Random, n: u32) -> Day {
    let mut list = Vec::new();
    let mut start = 100;
    for _ in 0..random.below(40) {
        start += random.below(3);
        let from = random.below(n);
        let to = (from + 1 + random.below(n - 1)) % n;
        list.extend([from, to, start, 1 + random.below(6), random.below(3)]);
    }
    let a = 95 + random.below(20);
    let w = a + random.below(40);
    let pivots = (0..16).flat_map(|_| [random.below(n), a + random.below(w - a + 1)]);
    Day {
        list,
        n,
        asker: 1,
        a,
        w,
        source: 0,
        target: n - 1,
        pivots: pivots.collect(),
    }
}

// Now and then one number of a row becomes wrong.
fn spoil(list: &mut [u32], random: &mut Random) {
    let rows = (list.len() / 5) as u32;
    if rows == 0 || random.below(2) == 0 {
        return;
    }
    let row = 5 * random.below(rows) as usize;
    match random.below(5) {
        0 => list[row] = 300,
        1 => list[row + 1] = list[row],
        2 => list[row + 2] = 90,
        3 => list[row + 3] = [0, 259_200, u32::MAX][random.below(3) as usize],
        _ => list[row + 4] = 256,
    }
}
