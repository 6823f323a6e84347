// The ways to make a call, by name, and the calls of a day, by name.
use crate::calls::{Ask, Call, Lent, Reply, SCRATCH};
use crate::days::Day;
use crate::{lean, library, plain, textbook};

pub const CALLS: [&str; 9] = [
    "distances_from",
    "distances_to",
    "table",
    "forward_eccentricity",
    "backward_eccentricity",
    "diameter",
    "pivot_diameter_1",
    "pivot_diameter_16",
    "office_check",
];

pub type Way = fn(Ask, Call, &mut Lent) -> Reply;

pub fn way_named(name: &str) -> Way {
    match name {
        "library" => library::reply,
        "plain" => plain::reply,
        "lean" => lean::reply,
        "textbook" => textbook::reply,
        _ => panic!("no way {name}"),
    }
}

pub fn ask(day: &Day) -> Ask<'_> {
    Ask {
        list: &day.list,
        n: day.n,
        asker: day.asker,
        a: day.a,
        w: day.w,
    }
}

pub fn call_named<'a>(name: &str, day: &'a Day) -> Call<'a> {
    match name {
        "distances_from" => Call::DistancesFrom(day.source),
        "distances_to" => Call::DistancesTo(day.target),
        "table" => Call::Table,
        "forward_eccentricity" => Call::ForwardEccentricity(day.source),
        "backward_eccentricity" => Call::BackwardEccentricity(day.target),
        "diameter" => Call::Diameter,
        // The ninth pivot has the stop and the reading in the middle.
        "pivot_diameter_1" => Call::PivotDiameter(&day.pivots[16..18]),
        "pivot_diameter_16" => Call::PivotDiameter(&day.pivots),
        "office_check" => Call::OfficeCheck,
        _ => panic!("no call {name}"),
    }
}

// Lists of numbers that no call writes, so that a place left alone shows.
pub fn lent(out: usize, scratch: usize) -> Lent {
    Lent {
        out: vec![7_777_777; out],
        scratch: vec![7_777_777; scratch],
    }
}

pub fn lent_for(day: &Day) -> Lent {
    let n = day.n as usize;
    lent(n * n + 3, SCRATCH + 3)
}
