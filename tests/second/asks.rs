// Random asks: a day of rows with ties and close connections, an interval, pivots, lent lists.

use crate::ask::*;
use crate::damage;
use crate::random::Random;

#[derive(Clone, Copy, PartialEq)]
pub enum Size {
    Short,
    Middle,
    Long,
}

pub struct Made {
    pub ask: Ask,
    pub size: Size,
    pub damaged: bool,
}

/// What a day is made from.
struct Plan {
    n: u32,
    rows: usize,
    asker: u32,
    /// The first start, the time that the starts spread over, and the longest travel.
    base: u32,
    span: u32,
    travel: u32,
}

pub fn random_ask(random: &mut Random) -> Made {
    let call = random.pick(&CALLS);
    let size = random_size(random);
    let plan = random_plan(size, random);
    let mut rows = random_rows(&plan, random);
    if call == Call::OfficeCheck {
        rows.iter_mut()
            .for_each(|row| row.owner = row.owner.min(MOST_ASKER));
    }
    let mut ask = sound_ask(call, &plan, &rows, random);
    if call != Call::OfficeCheck && random.chance(50) {
        damage::spoil_foreign(&mut ask, random);
    }
    let damages = match random.below(100) {
        0..=64 => 0,
        65..=84 => 1,
        _ => 2 + random.below(4),
    };
    for _ in 0..damages {
        damage::add(&mut ask, random);
    }
    Made {
        ask,
        size,
        damaged: damages > 0,
    }
}

fn random_size(random: &mut Random) -> Size {
    match random.below(100) {
        0..=79 => Size::Short,
        80..=95 => Size::Middle,
        _ => Size::Long,
    }
}

fn random_plan(size: Size, random: &mut Random) -> Plan {
    let (rows, n, span) = match size {
        Size::Short => short_plan(random),
        Size::Middle => middle_plan(random),
        Size::Long => long_plan(random),
    };
    let travel = random.pick(&[1, 2, 5, span / 8 + 1, span / 2 + 1]);
    let base = match random.below(4) {
        0 => 0,
        1 => HORIZON - 1 - span,
        _ => random.between(0, HORIZON - 1 - span),
    };
    let asker = match random.below(8) {
        0..=1 => 0,
        2 => 255,
        _ => random.between(1, 255),
    };
    Plan {
        n,
        rows,
        asker,
        base,
        span,
        travel,
    }
}

fn short_plan(random: &mut Random) -> (usize, u32, u32) {
    let n = match random.below(20) {
        0 => 1,
        1 => random.between(7, 256),
        _ => random.between(2, 6),
    };
    (random.below(11), n, random.between(0, 40))
}

fn middle_plan(random: &mut Random) -> (usize, u32, u32) {
    let rows = 11 + random.below(140);
    let span = random.pick(&[20, 100, 600, 7_200, 86_400]);
    (rows, random.between(2, 40), span)
}

fn long_plan(random: &mut Random) -> (usize, u32, u32) {
    let rows = match random.below(3) {
        0 => MOST_ROWS,
        _ => 151 + random.below(MOST_ROWS - 150),
    };
    let n = match random.below(4) {
        0 => MOST_STOPS,
        1 => random.between(2, 12),
        _ => random.between(2, MOST_STOPS),
    };
    let span = random.pick(&[300, 3_600, 86_400, 250_000]);
    (rows, n, span)
}

/// Rows sound and in the order of starts; with one stop there is no sound row, and all are foreign.
fn random_rows(plan: &Plan, random: &mut Random) -> Vec<Row> {
    let last = plan.base + plan.span;
    let mut starts: Vec<u32> = (0..plan.rows)
        .map(|_| random.between(plan.base, last))
        .collect();
    starts.sort_unstable();
    let mut rows: Vec<Row> = Vec::with_capacity(plan.rows);
    for number in 0..plan.rows {
        let owner = match plan.n {
            1 => foreign_owner(plan.asker, random),
            _ => random_owner(plan.asker, random),
        };
        let from = random_from(plan.n, &rows, starts[number], random);
        rows.push(Row {
            from,
            to: random_other(plan.n, from, random),
            start: starts[number],
            travel: random_travel(plan, &starts[number..], random),
            owner,
        });
    }
    rows
}

/// Any stop, or the end of an earlier row that has arrived by `start`.
fn random_from(n: u32, rows: &[Row], start: u32, random: &mut Random) -> u32 {
    if !rows.is_empty() && random.chance(60) {
        let recent = rows.len() - 1 - random.below(rows.len().min(12));
        if rows[recent].arrival() <= u64::from(start) {
            return rows[recent].to;
        }
    }
    random.between(0, n - 1)
}

/// A stop that differs from `from`, where there is one.
fn random_other(n: u32, from: u32, random: &mut Random) -> u32 {
    match n {
        1 => 0,
        _ => (from + random.between(1, n - 1)) % n,
    }
}

/// Up to the plan's longest, or exactly until a later row starts; it arrives by the horizon.
fn random_travel(plan: &Plan, starts: &[u32], random: &mut Random) -> u32 {
    let later = starts[random.below(starts.len().min(20))] - starts[0];
    let most = HORIZON - starts[0];
    let travel = match random.below(20) {
        0..=7 if later > 0 => later,
        8 if plan.base + plan.span == HORIZON - 1 => most,
        _ => random.between(1, plan.travel),
    };
    travel.min(most)
}

fn random_owner(asker: u32, random: &mut Random) -> u32 {
    match random.below(8) {
        0..=3 => 0,
        4..=5 => asker,
        _ => foreign_owner(asker, random),
    }
}

/// An owner whose rows the asker does not see, often one that is near the asker in some bits.
pub fn foreign_owner(asker: u32, random: &mut Random) -> u32 {
    loop {
        let owner = match random.below(8) {
            0 => asker.wrapping_add(1),
            1 => asker.wrapping_sub(1),
            2 => asker.wrapping_add(256),
            3 => asker ^ (1 << random.below(32)),
            4 => random.pick(&[255, 256, 65_536, u32::MAX]),
            _ => random.between(1, 255),
        };
        if owner != 0 && owner != asker {
            return owner;
        }
    }
}

fn sound_ask(call: Call, plan: &Plan, rows: &[Row], random: &mut Random) -> Ask {
    let mut ask = Ask {
        call,
        list: rows.iter().flat_map(|row| row.numbers()).collect(),
        n: plan.n,
        asker: 0,
        a: 0,
        w: 0,
        stop: 0,
        pivots: Vec::new(),
        out_len: 0,
        scratch_len: 0,
        junk: random_junk(random),
    };
    if call == Call::OfficeCheck {
        return ask;
    }
    ask.asker = plan.asker;
    (ask.a, ask.w) = random_interval(plan, rows, random);
    if call.takes_stop() {
        ask.stop = random_stop(plan.n, rows, random);
    }
    if call == Call::PivotDiameter {
        ask.pivots = random_pivots(&ask, rows, random);
    }
    if call.takes_out() {
        ask.out_len = call.wanted(plan.n) as usize + random.pick(&[0, 0, 1, 2, 9]);
    }
    if call.takes_scratch() {
        ask.scratch_len = SCRATCH + random.pick(&[0, 0, 1, 5]);
    }
    ask
}

/// See `junk_list`: below 2^32 the same number in every place.
fn random_junk(random: &mut Random) -> u64 {
    match random.below(8) {
        0 => 0,
        1 => u64::from(u32::MAX),
        2 => u64::from(random.between(0, 300)),
        _ => random.next() | 1 << 40,
    }
}

/// Around the day's starts and arrivals, often with an edge exactly at one or a second beside it.
fn random_interval(plan: &Plan, rows: &[Row], random: &mut Random) -> (u32, u32) {
    let end = plan.base + plan.span + plan.travel;
    let row = |random: &mut Random| match rows {
        [] => (plan.base, end),
        _ => {
            let row = rows[random.below(rows.len())];
            (row.start, row.start + row.travel)
        }
    };
    let a = match random.below(8) {
        0 => 0,
        1 => row(random).0,
        2 => row(random).0 + 1,
        3 => random.between(plan.base, end),
        _ => plan.base - random.between(0, plan.base.min(3)),
    };
    let w = match random.below(8) {
        0 => HORIZON,
        1 => row(random).1,
        2 => row(random).1 - 1,
        3 => random.between(plan.base, end),
        _ => end,
    };
    (a.min(w).min(HORIZON), a.max(w).min(HORIZON))
}

fn random_stop(n: u32, rows: &[Row], random: &mut Random) -> u32 {
    match rows {
        [_, ..] if random.chance(50) => {
            let row = rows[random.below(rows.len())];
            random.pick(&[row.from, row.to]).min(n - 1)
        }
        _ => random.between(0, n - 1),
    }
}

fn random_pivots(ask: &Ask, rows: &[Row], random: &mut Random) -> Vec<u32> {
    let count = match random.below(10) {
        0 => 0,
        1..=4 => 1,
        5..=7 => 2,
        8 => random.below(MOST_PIVOTS),
        _ => MOST_PIVOTS,
    };
    let mut pivots: Vec<[u32; 2]> = (0..count)
        .map(|_| random_pivot(ask, rows, random))
        .collect();
    if count > 1 && random.chance(20) {
        pivots[random.below(count)] = pivots[random.below(count)];
    }
    pivots.concat()
}

/// A stop of a row about when the row starts or arrives, or any; its reading within A to W.
fn random_pivot(ask: &Ask, rows: &[Row], random: &mut Random) -> [u32; 2] {
    let any = random.between(ask.a, ask.w);
    let (stop, reading) = match random.below(6) {
        0 => (random.between(0, ask.n - 1), ask.a),
        1 => (random.between(0, ask.n - 1), ask.w),
        2..=4 if !rows.is_empty() => {
            let row = rows[random.below(rows.len())];
            let arrival = row.start.saturating_add(row.travel);
            random.pick(&[
                (row.to, arrival),
                (row.to, arrival.saturating_sub(1)),
                (row.from, row.start),
                (row.from, row.start.saturating_add(1)),
            ])
        }
        _ => (random.between(0, ask.n - 1), any),
    };
    [stop.min(ask.n - 1), reading.clamp(ask.a, ask.w)]
}
