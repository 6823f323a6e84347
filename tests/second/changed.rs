// The same ask over a list whose foreign rows are changed at will: the outcome has to stay.

use crate::ask::*;
use crate::asks::foreign_owner;
use crate::damage::wild;
use crate::random::Random;

/// Foreign rows struck out, altered and put in; the asker's rows and their order stay.
pub fn changed_list(ask: &Ask, random: &mut Random) -> Vec<u32> {
    let rows = ask.rows();
    let whole = ask.list.len() % ROW == 0 && rows.len() <= MOST_ROWS;
    let changed = match whole {
        true => put_in(ask, &struck_out(ask, &rows, random), random),
        false => altered_in_place(ask, &rows, random),
    };
    let tail = &ask.list[rows.len() * ROW..];
    let numbers = changed.iter().flat_map(|row| row.numbers());
    numbers.chain(tail.iter().copied()).collect()
}

/// Any row that the asker does not see: sometimes like one of the asker's rows, sometimes damaged.
fn foreign_row(ask: &Ask, rows: &[Row], random: &mut Random) -> Row {
    let owner = foreign_owner(ask.asker, random);
    let mut numbers = match rows {
        [_, ..] if random.chance(60) => rows[random.below(rows.len())].numbers(),
        _ => [0; ROW].map(|_| wild(ask.n, random)),
    };
    if random.chance(50) {
        numbers[random.below(ROW)] = wild(ask.n, random);
    }
    let row = Row::of(&numbers);
    Row { owner, ..row }
}

fn struck_out(ask: &Ask, rows: &[Row], random: &mut Random) -> Vec<Row> {
    let struck = random.pick(&[0, 30, 100]);
    let mut left = rows.to_vec();
    left.retain(|row| row.seen_by(ask.asker) || !random.chance(struck));
    for row in left.iter_mut().filter(|row| !row.seen_by(ask.asker)) {
        if random.chance(50) {
            *row = foreign_row(ask, rows, random);
        }
    }
    left
}

/// Rows put in before, between and after those given, as long as the list has room.
fn put_in(ask: &Ask, rows: &[Row], random: &mut Random) -> Vec<Row> {
    let room = MOST_ROWS - rows.len();
    let most = match random.below(40) {
        0 => room,
        _ => room.min(2 + rows.len() / 2),
    };
    let mut gaps = vec![0; rows.len() + 1];
    for _ in 0..random.below(most + 1) {
        gaps[random.below(rows.len() + 1)] += 1;
    }
    let mut changed = Vec::new();
    for (number, gap) in gaps.into_iter().enumerate() {
        changed.extend((0..gap).map(|_| foreign_row(ask, rows, random)));
        changed.extend(rows.get(number));
    }
    changed
}

fn altered_in_place(ask: &Ask, rows: &[Row], random: &mut Random) -> Vec<Row> {
    let mut altered = rows.to_vec();
    for row in altered.iter_mut().filter(|row| !row.seen_by(ask.asker)) {
        *row = foreign_row(ask, rows, random);
    }
    altered
}
