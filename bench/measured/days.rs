// Day lists of several shapes, with the asks that are put to them. A name gives the same day at every run.
use crate::random::Random;

pub const MOST_ROWS: usize = 2048;
pub const MOST_STOPS: u32 = 256;

const HOUR: u32 = 3600;
const DAY: u32 = 24 * HOUR;
const ASKER: u32 = 7;

// The days that every call is measured on.
pub const NAMES: [&str; 8] = [
    "random",
    "lines",
    "dense-16",
    "dense-5",
    "chain",
    "tenth",
    "random-hour",
    "lines-hour",
];

// A day list and what is asked of it.
pub struct Day {
    pub list: Vec<u32>,
    pub n: u32,
    pub asker: u32,
    pub a: u32,
    pub w: u32,
    pub source: u32,
    pub target: u32,
    pub pivots: Vec<u32>,
}

type Row = [u32; 5];

// The day of that name. `random/512/64` is a random day of 512 rows and 64 stops; `lines/512` has 512 rows.
pub fn named(name: &str) -> Option<Day> {
    let mut parts = name.split('/');
    let shape = parts.next()?;
    let rows = parts.next().map_or(Some(MOST_ROWS), |x| x.parse().ok())?;
    let n = parts.next().map_or(Some(MOST_STOPS), |x| x.parse().ok())?;
    let (eight, nine) = (8 * HOUR, 9 * HOUR);
    Some(match shape {
        "random" => asked(random(n, rows), n, 0, DAY),
        "lines" => asked(lines(rows), MOST_STOPS, 0, DAY),
        "dense-16" => asked(random(16, rows), 16, 0, DAY),
        "dense-5" => asked(random(5, rows), 5, 0, DAY),
        "chain" => asked(chain(rows), 3, 0, DAY),
        "tenth" => asked(tenth(random(n, rows)), n, 0, DAY),
        "random-hour" => asked(random(n, rows), n, eight, nine),
        "lines-hour" => asked(lines(rows), MOST_STOPS, eight, nine),
        _ => return None,
    })
}

// Sixteen pivots are spread over the stops and the interval.
fn asked(rows: Vec<Row>, n: u32, a: u32, w: u32) -> Day {
    let pivots = (0..16).flat_map(|i| [i * n / 16, a + (w - a) / 17 * (i + 1)]);
    Day {
        list: rows.concat(),
        n,
        asker: ASKER,
        a,
        w,
        source: n / 3,
        target: n * 2 / 3,
        pivots: pivots.collect(),
    }
}

// A row that the asker sees: one in four is the asker's own.
fn seen_row(random: &mut Random, from: u32, to: u32, start: u32, travel: u32) -> Row {
    let owner = if random.below(4) == 0 { ASKER } else { 0 };
    [from, to, start, travel, owner]
}

fn by_start(mut rows: Vec<Row>) -> Vec<Row> {
    rows.sort_by_key(|row| row[2]);
    rows
}

// Rows between any two stops, at any time of the day.
fn random(n: u32, count: usize) -> Vec<Row> {
    let mut random = Random::new(1);
    let mut rows = Vec::new();
    for _ in 0..count {
        let from = random.below(n);
        let to = (from + 1 + random.below(n - 1)) % n;
        let travel = 60 + random.below(HOUR - 60);
        let start = random.below(DAY - HOUR);
        rows.push(seen_row(&mut random, from, to, start, travel));
    }
    by_start(rows)
}

// Buses along seventeen lines of sixteen stops that meet at stop 0, there and back, run after run from five in the morning
// to ten at night.
fn lines(count: usize) -> Vec<Row> {
    let mut random = Random::new(2);
    let runs = count as u32 / 15 + 1;
    let mut rows = Vec::new();
    for run in 0..runs {
        let line = run / 2 % 17;
        let mut stops: Vec<u32> = (1..16).map(|i| line * 15 + i).collect();
        stops.insert(7, 0);
        if run % 2 == 1 {
            stops.reverse();
        }
        let mut start = 5 * HOUR + run * (17 * HOUR / runs);
        for pair in stops.windows(2) {
            let travel = 60 + random.below(180);
            rows.push(seen_row(&mut random, pair[0], pair[1], start, travel));
            start += travel + 20;
        }
    }
    rows.truncate(count);
    by_start(rows)
}

// Rides of half a day into a stop that has many departures: a search for what follows passes all of them.
fn chain(count: usize) -> Vec<Row> {
    let mut random = Random::new(3);
    let mut rows = Vec::new();
    for i in 0..count as u32 {
        let (from, to, travel) = match i % 8 {
            0 | 2 | 4 | 6 => (0, 1, DAY / 2),
            7 => (2, 0, 600),
            _ => (1, 2, 300),
        };
        rows.push(seen_row(&mut random, from, to, i * 20, travel));
    }
    rows
}

// Nine rows in ten belong to others.
fn tenth(mut rows: Vec<Row>) -> Vec<Row> {
    let mut random = Random::new(4);
    for row in &mut rows {
        if random.below(10) > 0 {
            row[4] = ASKER + 1 + random.below(200);
        }
    }
    rows
}
