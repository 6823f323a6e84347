// The table of refusals, in its order.

use crate::ask::*;

/// A number of the table, and the place.
pub type Refusal = (u32, u32);

type Check = fn(&Ask) -> Option<Refusal>;

const CHECKS: [Check; 10] = [
    length, rows, stops, asker, interval, own_rows, stop, pivots, readings, room,
];
const OFFICE_CHECKS: [Check; 4] = [length, rows, stops, office_rows];

pub fn refusal(ask: &Ask) -> Option<Refusal> {
    let checks: &[Check] = match ask.call {
        Call::OfficeCheck => &OFFICE_CHECKS,
        _ => &CHECKS,
    };
    checks.iter().find_map(|check| check(ask))
}

fn when(wrong: bool, number: u32) -> Option<Refusal> {
    wrong.then_some((number, 0))
}

fn length(ask: &Ask) -> Option<Refusal> {
    when(ask.list.len() % ROW != 0, 1)
}

fn rows(ask: &Ask) -> Option<Refusal> {
    when(ask.list.len() / ROW > MOST_ROWS, 2)
}

fn stops(ask: &Ask) -> Option<Refusal> {
    when(ask.n == 0 || ask.n > MOST_STOPS, 3)
}

fn asker(ask: &Ask) -> Option<Refusal> {
    when(ask.asker > MOST_ASKER, 4)
}

fn interval(ask: &Ask) -> Option<Refusal> {
    when(ask.a > ask.w || ask.w > HORIZON, 5)
}

fn sound(row: &Row, n: u32) -> bool {
    row.from < n
        && row.to < n
        && row.from != row.to
        && row.travel >= 1
        && row.arrival() <= u64::from(HORIZON)
}

/// Whether row `number` of `rows` is not sound, or starts before the row preceding it.
fn wrong(rows: &[Row], number: usize, n: u32) -> bool {
    !sound(&rows[number], n) || number > 0 && rows[number].start < rows[number - 1].start
}

fn own_rows(ask: &Ask) -> Option<Refusal> {
    let rows = ask.own_rows();
    let number = (0..rows.len()).find(|&number| wrong(&rows, number, ask.n))?;
    Some((6, number as u32))
}

fn stop(ask: &Ask) -> Option<Refusal> {
    when(ask.call.takes_stop() && ask.stop >= ask.n, 7)
}

fn pivots(ask: &Ask) -> Option<Refusal> {
    let len = ask.pivots.len();
    when(len % 2 != 0 || len / 2 > MOST_PIVOTS, 8)
}

fn readings(ask: &Ask) -> Option<Refusal> {
    let astray = |pivot: &[u32]| pivot[0] >= ask.n || pivot[1] < ask.a || pivot[1] > ask.w;
    let number = ask.pivots.chunks_exact(2).position(astray)?;
    Some((9, number as u32))
}

fn room(ask: &Ask) -> Option<Refusal> {
    let out = (ask.out_len as u64) < ask.call.wanted(ask.n);
    let scratch = ask.call.takes_scratch() && ask.scratch_len < SCRATCH;
    when(out || scratch, 10)
}

fn office_rows(ask: &Ask) -> Option<Refusal> {
    let rows = ask.rows();
    (0..rows.len()).find_map(|number| {
        let place = number as u32;
        if wrong(&rows, number, ask.n) {
            Some((6, place))
        } else {
            (rows[number].owner > MOST_ASKER).then_some((11, place))
        }
    })
}
