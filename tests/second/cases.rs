// The cases of "Day D, stop by stop" and of the program's example, in the document's numbers.

use crate::ask::*;
use crate::definitions::{self, pivot_bounds};
use crate::library;
use crate::report::print_difference;
use crate::routes::Method;

const DAY: [[u32; 5]; 7] = [
    [0, 1, 100, 20, 0],
    [1, 2, 120, 30, 0],
    [0, 2, 130, 10, 7],
    [1, 4, 130, 5, 9],
    [2, 3, 145, 15, 0],
    [2, 3, 150, 40, 0],
    [3, 4, 200, 5, 0],
];
const U: u32 = 4_294_967_295;
const DONE: Reply = [1, 0, 0, 0, 0];
const NO_VALUE: Reply = [2, 0, 0, 0, 0];
const METHODS: [Method; 2] = [Method::Fixpoint(4), Method::AllRoutes];

/// An ask, and what the document says of it: the reply, and the first places of `out`.
struct Case {
    ask: Ask,
    reply: Reply,
    filled: Vec<u32>,
}

/// A call over day D by the asker, 100 to 300, with lent lists longer than they need be.
fn ask(call: Call, asker: u32, stop: u32) -> Ask {
    Ask {
        call,
        list: DAY.concat(),
        n: 5,
        asker,
        a: 100,
        w: 300,
        stop,
        pivots: Vec::new(),
        out_len: call.wanted(5) as usize + 2,
        scratch_len: if call.takes_scratch() { 16_387 } else { 0 },
        junk: 1 << 40,
    }
}

fn over(a: u32, w: u32, ask: Ask) -> Ask {
    Ask { a, w, ..ask }
}

fn pivots(pivots: &[u32]) -> Ask {
    let pivots = pivots.to_vec();
    Ask {
        pivots,
        ..ask(Call::PivotDiameter, 0, 0)
    }
}

/// One row from 0 to 1, with two stops and the whole time up to the horizon.
fn one_row(start: u32, travel: u32) -> Ask {
    Ask {
        list: vec![0, 1, start, travel, 0],
        n: 2,
        ..over(0, 259_200, ask(Call::ForwardEccentricity, 0, 0))
    }
}

/// Day D with travel 0 in the row of owner 9.
fn spoilt(ask: Ask) -> Ask {
    let mut list = ask.list;
    list[3 * 5 + 3] = 0;
    Ask { list, ..ask }
}

fn replied(ask: Ask, reply: Reply) -> Case {
    let filled = Vec::new();
    Case { ask, reply, filled }
}

fn from(asker: u32, source: u32, filled: [u32; 5]) -> Case {
    Case {
        ask: ask(Call::DistancesFrom, asker, source),
        reply: DONE,
        filled: filled.to_vec(),
    }
}

/// The cases of asker 0; they hold too where the row of owner 9 is spoilt.
fn of_asker_0() -> Vec<Case> {
    vec![
        from(0, 0, [0, 20, 50, 90, 105]),
        from(0, 2, [U, U, 0, 60, 105]),
        replied(ask(Call::ForwardEccentricity, 0, 4), NO_VALUE),
        replied(ask(Call::BackwardEccentricity, 0, 4), [1, 105, 0, 0, 0]),
        replied(ask(Call::Diameter, 0, 0), [1, 105, 0, 4, 1]),
        replied(over(100, 199, pivots(&[2, 150])), [1, 90, 0, 3, 1]),
        replied(over(100, 199, pivots(&[2, 149])), [1, 60, 2, 3, 1]),
        replied(pivots(&[3, 250, 2, 150]), [1, 105, 0, 4, 2]),
        replied(over(100, 110, pivots(&[0, 105])), [2, 0, 0, 0, 1]),
        replied(over(100, 110, pivots(&[0, 100])), [2, 0, 0, 0, 0]),
        replied(pivots(&[]), NO_VALUE),
        replied(pivots(&[2, 150]), [1, 105, 0, 4, 1]),
        replied(over(300, 100, pivots(&[2, 150])), [0, 5, 0, 0, 0]),
    ]
}

fn of_other_askers() -> Vec<Case> {
    let pivot = |asker| Ask {
        asker,
        ..pivots(&[2, 150])
    };
    vec![
        from(7, 0, [0, 20, 40, 60, 105]),
        from(9, 0, [0, 20, 50, 90, 35]),
        replied(ask(Call::ForwardEccentricity, 9, 0), [1, 90, 0, 0, 0]),
        replied(ask(Call::Diameter, 9, 0), [1, 105, 2, 4, 1]),
        replied(pivot(7), [1, 105, 0, 4, 1]),
        replied(pivot(9), [1, 105, 2, 4, 1]),
        replied(ask(Call::OfficeCheck, 0, 0), [1, 7, 0, 0, 0]),
    ]
}

/// Interval 100 to 100: all but the source unreached.
fn of_no_time() -> Vec<Case> {
    let alone = |source: u32| (0..5).map(move |stop| if stop == source { 0 } else { U });
    let case = |call, source, filled: Vec<u32>| Case {
        ask: over(100, 100, ask(call, 0, source)),
        reply: DONE,
        filled,
    };
    let mut cases = vec![case(Call::Table, 0, (0..5).flat_map(alone).collect())];
    for stop in 0..5 {
        cases.push(case(Call::DistancesFrom, stop, alone(stop).collect()));
        cases.push(case(Call::DistancesTo, stop, alone(stop).collect()));
    }
    cases
}

/// Readings at a limit and a second beyond it. The document says which of these pass; the values of
/// those that do were worked out by hand.
fn of_limits() -> Vec<Case> {
    let beyond = over(100, 259_201, ask(Call::Diameter, 0, 0));
    let at_horizon = over(100, 259_200, ask(Call::Diameter, 0, 0));
    vec![
        replied(one_row(259_199, 1), [1, 259_200, 0, 0, 0]),
        replied(one_row(259_199, 2), [0, 6, 0, 0, 0]),
        replied(at_horizon, [1, 105, 0, 4, 1]),
        replied(beyond, [0, 5, 0, 0, 0]),
        replied(over(100, 199, pivots(&[2, 100])), [1, 60, 2, 3, 1]),
        replied(over(100, 199, pivots(&[2, 199])), [1, 50, 0, 2, 1]),
        replied(over(100, 199, pivots(&[2, 99])), [0, 9, 0, 0, 0]),
        replied(over(100, 199, pivots(&[2, 200])), [0, 9, 0, 0, 0]),
        replied(over(100, 199, pivots(&[2, 150, 2, 200])), [0, 9, 1, 0, 0]),
    ]
}

/// A row of owner 9 with travel 0: the usual answers for asker 0, and 6 for those that read it.
fn of_a_spoilt_row() -> Vec<Case> {
    let mut cases = of_asker_0();
    for case in &mut cases {
        case.ask = spoilt(case.ask.clone());
    }
    let calls = CALLS.iter().filter(|&&call| call != Call::OfficeCheck);
    cases.extend(calls.map(|&call| replied(spoilt(ask(call, 9, 0)), [0, 6, 2, 0, 0])));
    let office = spoilt(ask(Call::OfficeCheck, 0, 0));
    cases.push(replied(office, [0, 6, 3, 0, 0]));
    cases
}

/// The outcomes that differ from the case's, of the library and of both own methods.
fn differing(case: &Case) -> Vec<(&'static str, Outcome)> {
    let expected = Outcome::of(&case.ask, case.reply, &case.filled);
    let mut came = vec![("library", library::outcome(&case.ask))];
    for (name, method) in ["fixpoint", "all routes"].into_iter().zip(METHODS) {
        came.push((name, definitions::outcome(&case.ask, method)));
    }
    came.retain(|(_, outcome)| *outcome != expected);
    came
}

/// The first outcome of a case that differs from the document.
fn print_case(case: &Case) {
    let expected = Outcome::of(&case.ask, case.reply, &case.filled);
    for (name, outcome) in differing(case).iter().take(1) {
        println!("difference: the {name} differs from the document's case:");
        print_difference(&case.ask, &expected, outcome);
    }
}

/// The bounds that the document names in brackets.
fn bounds_hold() -> bool {
    let short = over(100, 199, pivots(&[2, 149]));
    let long = pivots(&[3, 250, 2, 150]);
    METHODS.into_iter().all(|method| {
        pivot_bounds(&short, method).first() == Some(&90)
            && pivot_bounds(&long, method) == [150, 105, 50]
    })
}

/// Whether all cases hold. Of those that do not, the first is printed.
pub fn check() -> bool {
    let lists = [
        of_asker_0(),
        of_other_askers(),
        of_no_time(),
        of_limits(),
        of_a_spoilt_row(),
    ];
    let cases: Vec<Case> = lists.into_iter().flatten().collect();
    let wrong = |case: &&Case| !differing(case).is_empty();
    let wrong: Vec<&Case> = cases.iter().filter(wrong).collect();
    if let Some(case) = wrong.first() {
        print_case(case);
    }
    let bounds = bounds_hold();
    if !bounds {
        println!("difference: the bounds of day D's pivots");
    }
    println!(
        "cases of day D: {}, differing: {}",
        cases.len(),
        wrong.len()
    );
    wrong.is_empty() && bounds
}
