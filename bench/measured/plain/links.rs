// Links between legs, and the sweep over them. Number k stands for leg k - 1, and 0 for none.
use super::forward::Leg;
use crate::calls::UNREACHED;

const PLACES: usize = 2049;

// The first leg of each stop, the next leg of a leg's from-stop, and the first leg that may follow a leg.
pub struct Links {
    head: [u32; 256],
    next: [u32; PLACES],
    follow: [u32; PLACES],
}

// The first leg of a chain, from its leg k on, that starts at t or later.
fn first_from(legs: &[Leg], next: &[u32; PLACES], jump: &[u32; PLACES], k: u32, t: u32) -> u32 {
    let mut j = k;
    while j > 0 && legs[j as usize - 1].start < t {
        let far = jump[j as usize];
        j = if far > 0 && legs[far as usize - 1].start < t {
            far
        } else {
            next[j as usize]
        };
    }
    j
}

// Where a leg before leg p of a chain jumps to: past the two jumps that follow where these are as long as each other.
fn jump_of(jump: &[u32; PLACES], depth: &[u32; PLACES], p: u32) -> u32 {
    let q = jump[p as usize];
    if q == 0 {
        return p;
    }
    let r = jump[q as usize];
    if depth[p as usize] + depth[r as usize] == 2 * depth[q as usize] {
        r
    } else {
        p
    }
}

impl Links {
    pub fn new() -> Links {
        Links {
            head: [0; 256],
            next: [0; PLACES],
            follow: [0; PLACES],
        }
    }

    pub fn link(&mut self, legs: &[Leg]) {
        let mut jump = [0; PLACES];
        let mut depth = [0; PLACES];
        for (i, leg) in legs.iter().enumerate().rev() {
            let k = i + 1;
            let first = self.head[leg.to as usize];
            self.follow[k] = first_from(legs, &self.next, &jump, first, leg.arrive);
            let after = self.head[leg.from as usize];
            self.next[k] = after;
            jump[k] = jump_of(&jump, &depth, after);
            depth[k] = depth[after as usize] + 1;
            self.head[leg.from as usize] = k as u32;
        }
    }

    // The distances to a target from as many stops as `out` has places: one sweep from the last leg to the first.
    pub fn to_target(&self, legs: &[Leg], target: u32, out: &mut [u32]) {
        let mut best = [0; PLACES];
        best[0] = UNREACHED;
        for (i, leg) in legs.iter().enumerate().rev() {
            let k = i + 1;
            let later = best[self.follow[k] as usize];
            let own = if leg.to == target { leg.arrive } else { later };
            best[k] = own.min(best[self.next[k] as usize]);
        }
        for (place, first) in out.iter_mut().zip(&self.head) {
            *place = best[*first as usize];
        }
        out[target as usize] = 0;
    }
}
