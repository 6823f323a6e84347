// Plain Rust of the library's algorithms: the same steps over the same lists, with ordinary indexing and no unsafe code.
mod backward;
pub mod checks;
pub mod forward;
pub mod links;
mod pivots;
mod search;

use crate::calls::{eccentricity, filled, office, widest, Ask, Call, Lent, Reply};

#[inline(never)]
pub fn reply(ask: Ask, call: Call, lent: &mut Lent) -> Reply {
    let (out, scratch) = (&mut lent.out[..], &mut lent.scratch[..]);
    match call {
        Call::DistancesFrom(source) => filled(forward::distances_from(ask, source, out)),
        Call::DistancesTo(target) => filled(backward::distances_to(ask, target, out, scratch)),
        Call::Table => filled(forward::table(ask, out)),
        Call::ForwardEccentricity(stop) => eccentricity(forward::forward_eccentricity(ask, stop)),
        Call::BackwardEccentricity(stop) => {
            eccentricity(backward::backward_eccentricity(ask, stop, scratch))
        }
        Call::Diameter => widest(search::diameter(ask, scratch)),
        Call::PivotDiameter(list) => widest(pivots::pivot_diameter(ask, list, scratch)),
        Call::OfficeCheck => office(checks::office_check(ask.list, ask.n)),
    }
}
