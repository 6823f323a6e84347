// The search for the farthest pair: bounds, the next target, the farthest source of a target, and the diameter.
use super::checks::{check_room, prepare, wipe, Row};
use super::forward::{make_legs, Leg};
use super::links::Links;
use crate::calls::{Ask, Refusal, Search, SCRATCH, UNREACHED};
use crate::days::MOST_ROWS;

// The greatest distance, 0 for none, and the lowest stop at that distance.
#[derive(Clone, Copy, Default)]
pub struct Far {
    pub value: u32,
    pub source: u32,
}

// The farthest of the stops that the distances belong to, but for the named one.
pub fn farthest(distances: &[u32], stop: u32) -> Far {
    let mut far = Far::default();
    for (u, &distance) in (0..).zip(distances) {
        if u != stop && distance != UNREACHED && distance > far.value {
            far = Far {
                value: distance,
                source: u,
            };
        }
    }
    far
}

pub fn far_to(legs: &[Leg], links: &Links, n: usize, target: u32) -> Far {
    let mut room = [0; 256];
    let out = &mut room[..n];
    links.to_target(legs, target, out);
    farthest(out, target)
}

// The later of a bound, if there is one, and another arrival.
pub fn later(bound: u32, arrive: u32) -> u32 {
    if bound == UNREACHED || bound < arrive {
        arrive
    } else {
        bound
    }
}

// The latest arrival of the legs that enter each stop, or unreached where none does.
fn bounds(legs: &[Leg], out: &mut [u32]) {
    out.fill(UNREACHED);
    for leg in legs {
        let bound = &mut out[leg.to as usize];
        *bound = later(*bound, leg.arrive);
    }
}

// A target with its bound.
#[derive(Clone, Copy)]
struct Target {
    bound: u32,
    stop: u32,
}

// The first target after `last`, by falling bound, then rising number.
fn next_target(bounds: &[u32], last: Target) -> Option<Target> {
    let mut next: Option<Target> = None;
    for (stop, &bound) in (0..).zip(bounds) {
        let after = bound < last.bound || (bound == last.bound && stop > last.stop);
        if bound != UNREACHED && after && next.map_or(true, |found| bound > found.bound) {
            next = Some(Target { bound, stop });
        }
    }
    next
}

// The search over all targets, where `far` finds the farthest source of one.
pub fn visit_all(bounds: &[u32], far: impl Fn(u32) -> Far) -> Search {
    let mut search = Search::default();
    let mut last = Target {
        bound: UNREACHED,
        stop: 0,
    };
    while let Some(next) = next_target(bounds, last) {
        if next.bound <= search.best {
            break;
        }
        let found = far(next.stop);
        search.visits += 1;
        if found.value > search.best {
            search.best = found.value;
            search.source = found.source;
            search.target = next.stop;
        }
        last = next;
    }
    search
}

pub fn diameter(ask: Ask, scratch: &mut [u32]) -> Result<Search, Refusal> {
    let mut rows = [Row::default(); MOST_ROWS];
    let count = prepare(ask, &mut rows)?;
    check_room(scratch, SCRATCH)?;
    let n = ask.n as usize;
    let mut legs = [Leg::default(); MOST_ROWS];
    let m = make_legs(&rows[..count], ask.a, ask.w, &mut legs);
    let legs = &legs[..m];
    let mut links = Links::new();
    links.link(legs);
    let mut entered = [0; 256];
    bounds(legs, &mut entered[..n]);
    let search = visit_all(&entered[..n], |target| far_to(legs, &links, n, target));
    wipe(scratch);
    Ok(search)
}
