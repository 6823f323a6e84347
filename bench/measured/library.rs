// The library's calls, by its C interface.
#[path = "../../bindings/rust/src/raw.rs"]
mod raw;

use crate::calls::{Ask, Call, Lent, Reply};
use raw::*;

#[inline(never)]
pub fn reply(ask: Ask, call: Call, lent: &mut Lent) -> Reply {
    let (n, asker, a, w) = (ask.n, ask.asker, ask.a, ask.w);
    let (rows, len) = (ask.list.as_ptr(), ask.list.len());
    let (out, places) = (lent.out.as_mut_ptr(), lent.out.len());
    let (scratch, room) = (lent.scratch.as_mut_ptr(), lent.scratch.len());
    let mut reply = [0; 5];
    let r = &mut reply;
    // Every pointer comes with its list's length, and the lists do not overlap.
    unsafe {
        match call {
            Call::DistancesFrom(u) => {
                figures_distances_from(rows, len, n, asker, a, w, u, out, places, r)
            }
            Call::DistancesTo(v) => {
                figures_distances_to(rows, len, n, asker, a, w, v, out, places, scratch, room, r)
            }
            Call::Table => figures_table(rows, len, n, asker, a, w, out, places, r),
            Call::ForwardEccentricity(u) => {
                figures_forward_eccentricity(rows, len, n, asker, a, w, u, r)
            }
            Call::BackwardEccentricity(v) => {
                figures_backward_eccentricity(rows, len, n, asker, a, w, v, scratch, room, r)
            }
            Call::Diameter => figures_diameter(rows, len, n, asker, a, w, scratch, room, r),
            Call::PivotDiameter(pivots) => {
                let (p, k) = (pivots.as_ptr(), pivots.len());
                figures_pivot_diameter(rows, len, n, asker, a, w, p, k, scratch, room, r)
            }
            Call::OfficeCheck => figures_office_check(rows, len, n, r),
        }
    }
    reply
}
