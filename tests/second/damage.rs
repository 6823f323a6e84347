// Damage of every kind to a sound ask, with the values next to each limit.

use crate::ask::*;
use crate::asks::foreign_owner;
use crate::random::Random;

/// A number that stands at a limit, or any.
pub fn wild(n: u32, random: &mut Random) -> u32 {
    match random.below(5) {
        0 => random.between(0, n.saturating_add(1)),
        1 => random.pick(&[n.wrapping_sub(1), n, 255, 256, 257, 65_536]),
        2 => random.pick(&[259_199, 259_200, 259_201, 1 << 31, u32::MAX - 1, u32::MAX]),
        3 => random.between(0, HORIZON),
        _ => random.next() as u32,
    }
}

/// Foreign rows with any numbers at all; their owners stay.
pub fn spoil_foreign(ask: &mut Ask, random: &mut Random) {
    for numbers in ask.list.chunks_exact_mut(ROW) {
        if !Row::of(numbers).seen_by(ask.asker) {
            let others = &mut numbers[..ROW - 1];
            others.fill_with(|| wild(ask.n, random));
        }
    }
}

type Damage = fn(&mut Ask, &mut Random);

/// One damage to something that the call takes, the more often the more checks go before it.
pub fn add(ask: &mut Ask, random: &mut Random) {
    let mut damages: Vec<Damage> = vec![length, rows, stops, row, row, row];
    let mut also = |taken: bool, damage: Damage, times: usize| {
        damages.extend(vec![damage; if taken { times } else { 0 }]);
    };
    let office = ask.call == Call::OfficeCheck;
    let pivots = ask.call == Call::PivotDiameter;
    also(office, owner, 5);
    also(!office, asker, 1);
    also(!office, interval, 1);
    also(ask.call.takes_stop(), stop, 2);
    also(pivots, pivot_length, 4);
    also(pivots, pivot, 9);
    also(ask.call.takes_out(), out, 2);
    also(ask.call.takes_scratch(), scratch, 2);
    random.pick(&damages)(ask, random);
}

fn length(ask: &mut Ask, random: &mut Random) {
    if random.chance(50) {
        ask.list
            .truncate(ask.list.len().saturating_sub(1 + random.below(4)));
    } else {
        for _ in 0..1 + random.below(4) {
            ask.list.push(wild(ask.n, random));
        }
    }
}

/// Exactly 2,048 rows, one more, or some more, by repeating the last row.
fn rows(ask: &mut Ask, random: &mut Random) {
    let count = MOST_ROWS + random.pick(&[0, 1, 1, 2, 50]);
    let rows = ask.rows();
    let last = rows.last().map_or([0, 1, 0, 1, 0], |row| row.numbers());
    for _ in rows.len()..count {
        ask.list.extend(last);
    }
}

fn stops(ask: &mut Ask, random: &mut Random) {
    ask.n = match random.below(8) {
        0 => random.next() as u32,
        1 => ask.n.saturating_sub(1),
        _ => random.pick(&[0, 0, 1, 256, 257, 257, 512, 65_536, 65_537, u32::MAX]),
    };
}

fn asker(ask: &mut Ask, random: &mut Random) {
    ask.asker = match random.below(4) {
        0 => ask.asker.wrapping_add(256),
        1 => random.next() as u32,
        _ => random.pick(&[255, 256, 256, 257, u32::MAX]),
    };
}

fn interval(ask: &mut Ask, random: &mut Random) {
    match random.below(7) {
        0 => ask.a = ask.w.saturating_add(1),
        1 => ask.w = ask.a.saturating_sub(1),
        2 => ask.a = wild(ask.n, random),
        3 => ask.w = wild(ask.n, random),
        4 => ask.w = HORIZON,
        5 => ask.w = HORIZON + 1,
        _ => (ask.a, ask.w) = (ask.w, ask.a),
    }
}

/// One of the asker's rows mostly, or any row.
fn row(ask: &mut Ask, random: &mut Random) {
    let rows = ask.rows();
    let own = |number: &usize| rows[*number].seen_by(ask.asker);
    let mut numbers: Vec<usize> = (0..rows.len()).collect();
    if random.chance(75) {
        numbers.retain(own);
    }
    if numbers.is_empty() {
        return;
    }
    let place = random.below(numbers.len());
    let before = place
        .checked_sub(1)
        .map_or(0, |before| rows[numbers[before]].start);
    let damaged = damaged_row(rows[numbers[place]], before, ask.n, random);
    let first = numbers[place] * ROW;
    ask.list[first..first + ROW].copy_from_slice(&damaged.numbers());
}

/// `before` is the start of the row before it. The sums that overflow come out small in 32 bits.
fn damaged_row(mut row: Row, before: u32, n: u32, random: &mut Random) -> Row {
    match random.below(15) {
        0 => row.from = n,
        1 => row.from = n.wrapping_sub(1),
        2 => row.to = n,
        3 => row.to = n.wrapping_sub(1),
        4 => row.to = row.from,
        5 => row.travel = 0,
        6 => row.travel = HORIZON.saturating_sub(row.start),
        7 => row.travel = HORIZON.saturating_sub(row.start) + 1,
        8 => row.travel = random.between(0, row.start).wrapping_sub(row.start),
        9 => row.start = u32::MAX - random.between(0, 2),
        10 => row.start = before.saturating_sub(1),
        11 => row.start = before,
        12 => row.from = wild(n, random),
        13 => row.to = wild(n, random),
        _ => row.travel = wild(n, random),
    }
    row
}

/// An owner next to the limit, sometimes on a row that is damaged too.
fn owner(ask: &mut Ask, random: &mut Random) {
    let rows = ask.list.len() / ROW;
    if rows == 0 {
        return;
    }
    let first = random.below(rows) * ROW;
    let numbers = &mut ask.list[first..first + ROW];
    let mut row = Row::of(numbers);
    if random.chance(25) {
        row = damaged_row(row, row.start, ask.n, random);
    }
    row.owner = match random.below(4) {
        0 => 255,
        1 => foreign_owner(0, random),
        _ => random.pick(&[256, 257, 65_536, u32::MAX]),
    };
    numbers.copy_from_slice(&row.numbers());
}

fn stop(ask: &mut Ask, random: &mut Random) {
    ask.stop = match random.below(4) {
        0 => ask.n.saturating_sub(1),
        1 => wild(ask.n, random),
        _ => ask.n,
    };
}

fn pivot_length(ask: &mut Ask, random: &mut Random) {
    let pivot = [0, ask.a];
    let pivots = random.pick(&[MOST_PIVOTS, MOST_PIVOTS + 1, MOST_PIVOTS + 1, 40]);
    match random.below(3) {
        0 => ask.pivots.push(wild(ask.n, random)),
        1 => ask.pivots.truncate(ask.pivots.len().saturating_sub(1)),
        _ => {
            let missing = pivots.saturating_sub(ask.pivots.len() / 2);
            ask.pivots.extend(pivot.repeat(missing));
        }
    }
}

fn pivot(ask: &mut Ask, random: &mut Random) {
    let pivots = ask.pivots.len() / 2;
    if pivots == 0 {
        return;
    }
    let first = random.below(pivots) * 2;
    let damaged = &mut ask.pivots[first..first + 2];
    match random.below(8) {
        0 => damaged[0] = ask.n,
        1 => damaged[0] = ask.n.saturating_sub(1),
        2 => damaged[0] = wild(ask.n, random),
        3 => damaged[1] = ask.a.saturating_sub(1),
        4 => damaged[1] = ask.w.saturating_add(1),
        5 => damaged[1] = ask.a,
        6 => damaged[1] = ask.w,
        _ => damaged[1] = wild(ask.n, random),
    }
}

fn out(ask: &mut Ask, random: &mut Random) {
    let n = ask.n.min(MOST_STOPS);
    let wanted = ask.call.wanted(n) as usize;
    ask.out_len = match random.below(6) {
        0 => 0,
        1 => wanted,
        2 => wanted + 1,
        3 => random.below(wanted + 1),
        4 => n as usize,
        _ => wanted.saturating_sub(1),
    };
}

fn scratch(ask: &mut Ask, random: &mut Random) {
    ask.scratch_len = match random.below(5) {
        0 => 0,
        1 => SCRATCH + 1,
        2 => random.below(SCRATCH),
        _ => SCRATCH - 1,
    };
}
