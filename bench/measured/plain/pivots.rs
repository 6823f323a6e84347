// Pivots: what each reaches and is reached from, and the pivot-diameter.
use super::checks::{check_pivots, check_room, prepare, wipe, Row};
use super::forward::{forward_pass, make_legs, Leg};
use super::links::Links;
use super::search::{farthest, later, visit_all, Far};
use crate::calls::{Ask, Refusal, Search, SCRATCH, UNREACHED};
use crate::days::MOST_ROWS;

// For each pivot and stop: the earliest arrival onward from the pivot, and one more than the latest start into it, 0 for none.
struct Reach {
    onward: [[u32; 256]; 16],
    into: [[u32; 256]; 16],
    count: usize,
}

// The latest starts that reach `stop` by `by`, each with 1 added.
fn reach_back(legs: &[Leg], stop: usize, by: u32, out: &mut [u32]) {
    out.fill(0);
    out[stop] = by + 1;
    for leg in legs.iter().rev() {
        let caught = if leg.arrive < out[leg.to as usize] {
            leg.start + 1
        } else {
            0
        };
        let here = &mut out[leg.from as usize];
        *here = caught.max(*here);
    }
}

impl Reach {
    fn new() -> Reach {
        Reach {
            onward: [[0; 256]; 16],
            into: [[0; 256]; 16],
            count: 0,
        }
    }

    fn lay(&mut self, legs: &[Leg], pivots: &[u32], n: usize, a: u32) {
        self.count = pivots.len() / 2;
        for (i, pivot) in pivots.chunks_exact(2).enumerate() {
            let (stop, reading) = (pivot[0] as usize, pivot[1] - a);
            forward_pass(legs, stop, reading, &mut self.onward[i][..n]);
            reach_back(legs, stop, reading, &mut self.into[i][..n]);
        }
    }

    // The greatest arrival at stop v over the pivots that reach it, or unreached.
    fn bound(&self, v: usize) -> u32 {
        let mut bound = UNREACHED;
        for onward in &self.onward[..self.count] {
            if onward[v] != UNREACHED {
                bound = later(bound, onward[v]);
            }
        }
        bound
    }

    fn joins(&self, u: usize, v: usize) -> bool {
        let mut pivots = self.onward[..self.count]
            .iter()
            .zip(&self.into[..self.count]);
        pivots.any(|(onward, into)| onward[v] != UNREACHED && into[u] != 0)
    }

    fn far_joined(&self, legs: &[Leg], links: &Links, n: usize, target: u32) -> Far {
        let mut room = [0; 256];
        let out = &mut room[..n];
        links.to_target(legs, target, out);
        for (u, distance) in out.iter_mut().enumerate() {
            if !self.joins(u, target as usize) {
                *distance = UNREACHED;
            }
        }
        farthest(out, target)
    }
}

pub fn pivot_diameter(ask: Ask, pivots: &[u32], scratch: &mut [u32]) -> Result<Search, Refusal> {
    let mut rows = [Row::default(); MOST_ROWS];
    let count = prepare(ask, &mut rows)?;
    check_pivots(pivots, ask)?;
    check_room(scratch, SCRATCH)?;
    let n = ask.n as usize;
    let mut legs = [Leg::default(); MOST_ROWS];
    let m = make_legs(&rows[..count], ask.a, ask.w, &mut legs);
    let legs = &legs[..m];
    let mut links = Links::new();
    links.link(legs);
    let mut reach = Reach::new();
    reach.lay(legs, pivots, n, ask.a);
    let mut entered = [0; 256];
    for (v, bound) in entered[..n].iter_mut().enumerate() {
        *bound = reach.bound(v);
    }
    let search = visit_all(&entered[..n], |target| {
        reach.far_joined(legs, &links, n, target)
    });
    wipe(scratch);
    Ok(search)
}
