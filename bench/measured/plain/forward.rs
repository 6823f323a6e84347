// Legs, the forward pass, and the calls that go forward from a source.
use super::checks::{check_room, check_stop, prepare, Row};
use super::search::farthest;
use crate::calls::{Ask, Refusal, UNREACHED};
use crate::days::MOST_ROWS;

// An own row that lies in the interval, with its times as lengths since A.
#[derive(Clone, Copy, Default)]
pub struct Leg {
    pub from: u32,
    pub to: u32,
    pub start: u32,
    pub arrive: u32,
}

// The legs of the rows go to the front of `legs`.
pub fn make_legs(rows: &[Row], a: u32, w: u32, legs: &mut [Leg; MOST_ROWS]) -> usize {
    let mut count = 0;
    for row in rows {
        let arrival = row.start + row.travel;
        if row.start >= a && arrival <= w {
            legs[count] = Leg {
                from: row.from,
                to: row.to,
                start: row.start - a,
                arrive: arrival - a,
            };
            count += 1;
        }
    }
    count
}

// The arrivals from a source left at `since`. A stop that is not reached has a number above every start.
pub fn forward_pass(legs: &[Leg], source: usize, since: u32, out: &mut [u32]) {
    out.fill(UNREACHED);
    out[source] = since;
    for leg in legs {
        if out[leg.from as usize] <= leg.start {
            let there = &mut out[leg.to as usize];
            *there = leg.arrive.min(*there);
        }
    }
}

pub fn distances_from(ask: Ask, source: u32, out: &mut [u32]) -> Result<(), Refusal> {
    let mut rows = [Row::default(); MOST_ROWS];
    let count = prepare(ask, &mut rows)?;
    check_stop(source, ask.n)?;
    let n = ask.n as usize;
    check_room(out, n)?;
    let mut legs = [Leg::default(); MOST_ROWS];
    let m = make_legs(&rows[..count], ask.a, ask.w, &mut legs);
    forward_pass(&legs[..m], source as usize, 0, &mut out[..n]);
    Ok(())
}

pub fn table(ask: Ask, out: &mut [u32]) -> Result<(), Refusal> {
    let mut rows = [Row::default(); MOST_ROWS];
    let count = prepare(ask, &mut rows)?;
    let n = ask.n as usize;
    check_room(out, n * n)?;
    let mut legs = [Leg::default(); MOST_ROWS];
    let m = make_legs(&rows[..count], ask.a, ask.w, &mut legs);
    for (source, stretch) in out[..n * n].chunks_exact_mut(n).enumerate() {
        forward_pass(&legs[..m], source, 0, stretch);
    }
    Ok(())
}

pub fn forward_eccentricity(ask: Ask, stop: u32) -> Result<u32, Refusal> {
    let mut rows = [Row::default(); MOST_ROWS];
    let count = prepare(ask, &mut rows)?;
    check_stop(stop, ask.n)?;
    let mut legs = [Leg::default(); MOST_ROWS];
    let m = make_legs(&rows[..count], ask.a, ask.w, &mut legs);
    let mut room = [0; 256];
    let out = &mut room[..ask.n as usize];
    forward_pass(&legs[..m], stop as usize, 0, out);
    Ok(farthest(out, stop).value)
}
