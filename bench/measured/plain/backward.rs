// The calls that go backward to a target.
use super::checks::{check_room, check_stop, prepare, wipe, Row};
use super::forward::{make_legs, Leg};
use super::links::Links;
use super::search::far_to;
use crate::calls::{Ask, Refusal, SCRATCH};
use crate::days::MOST_ROWS;

pub fn distances_to(
    ask: Ask,
    target: u32,
    out: &mut [u32],
    scratch: &mut [u32],
) -> Result<(), Refusal> {
    let mut rows = [Row::default(); MOST_ROWS];
    let count = prepare(ask, &mut rows)?;
    check_stop(target, ask.n)?;
    let n = ask.n as usize;
    check_room(out, n)?;
    check_room(scratch, SCRATCH)?;
    let mut legs = [Leg::default(); MOST_ROWS];
    let m = make_legs(&rows[..count], ask.a, ask.w, &mut legs);
    let mut links = Links::new();
    links.link(&legs[..m]);
    links.to_target(&legs[..m], target, &mut out[..n]);
    wipe(scratch);
    Ok(())
}

pub fn backward_eccentricity(ask: Ask, stop: u32, scratch: &mut [u32]) -> Result<u32, Refusal> {
    let mut rows = [Row::default(); MOST_ROWS];
    let count = prepare(ask, &mut rows)?;
    check_stop(stop, ask.n)?;
    check_room(scratch, SCRATCH)?;
    let mut legs = [Leg::default(); MOST_ROWS];
    let m = make_legs(&rows[..count], ask.a, ask.w, &mut legs);
    let mut links = Links::new();
    links.link(&legs[..m]);
    let far = far_to(&legs[..m], &links, ask.n as usize, stop);
    wipe(scratch);
    Ok(far.value)
}
