// Every limit at once: 256 stops, 2,048 rows, 16 pivots, lists of no more places than are wanted, and little stack.
use figures::{office_check, Answer, Ask, Eccentricity, Filled, Office, Refusal};
use figures::{HORIZON, MOST_PIVOTS, MOST_ROWS, MOST_STOPS, SCRATCH, STACK, UNREACHED};

const STOPS: usize = MOST_STOPS as usize;

/// From each stop to the next, again and again; row i starts at 10 × i and travels 10.
fn full_list() -> Vec<u32> {
    let row = |i: u32| [i % 255, i % 255 + 1, 10 * i, 10, 0];
    (0..MOST_ROWS as u32).flat_map(row).collect()
}

fn full_ask(list: &[u32]) -> Ask<'_> {
    Ask {
        list,
        n: MOST_STOPS,
        asker: 255,
        a: 0,
        w: HORIZON,
    }
}

/// The first round of the rows brings one from u to any later stop v by 10 × v; none goes back.
fn distance(u: usize, v: usize) -> u32 {
    match v.cmp(&u) {
        std::cmp::Ordering::Less => UNREACHED,
        std::cmp::Ordering::Equal => 0,
        std::cmp::Ordering::Greater => 10 * v as u32,
    }
}

fn pivots(count: usize) -> Vec<u32> {
    (0..count as u32).flat_map(|i| [16 * i, 160 * i]).collect()
}

fn refusal(number: u32) -> Refusal {
    Refusal { number, place: 0 }
}

/// Runs in a thread that has the stack which a call is said to need.
fn with_little_stack(asks: fn()) {
    let thread = std::thread::Builder::new().stack_size(STACK);
    thread.spawn(asks).unwrap().join().unwrap();
}

fn lists_are_filled() {
    let list = full_list();
    let ask = full_ask(&list);
    let mut scratch = vec![77; SCRATCH];
    let mut out = vec![77; STOPS];
    assert_eq!(ask.distances_from(0, &mut out), Filled::Done);
    assert_eq!(out, (0..STOPS).map(|v| distance(0, v)).collect::<Vec<_>>());
    assert_eq!(ask.distances_to(255, &mut out, &mut scratch), Filled::Done);
    assert_eq!(
        out,
        (0..STOPS).map(|u| distance(u, 255)).collect::<Vec<_>>()
    );
    let mut out = vec![77; STOPS * STOPS];
    assert_eq!(ask.table(&mut out), Filled::Done);
    let whole = (0..STOPS * STOPS).map(|place| distance(place / STOPS, place % STOPS));
    assert!(out.into_iter().eq(whole));
}

fn figures_are_given() {
    let list = full_list();
    let ask = full_ask(&list);
    let mut scratch = vec![77; SCRATCH];
    let farthest = |visits| Answer::Value {
        value: 2550,
        from: 0,
        to: 255,
        visits,
    };
    assert_eq!(ask.forward_eccentricity(0), Eccentricity::Value(2550));
    assert_eq!(
        ask.backward_eccentricity(255, &mut scratch),
        Eccentricity::Value(2550)
    );
    assert_eq!(ask.diameter(&mut scratch), farthest(255));
    let pivots = pivots(MOST_PIVOTS);
    assert_eq!(ask.pivot_diameter(&pivots, &mut scratch), farthest(1));
    assert_eq!(office_check(&list, MOST_STOPS), Office::Rows(2048));
}

#[test]
fn the_greatest_lists_are_filled() {
    with_little_stack(lists_are_filled);
}

#[test]
fn the_greatest_asks_are_answered() {
    with_little_stack(figures_are_given);
}

#[test]
fn one_more_is_refused() {
    let list = full_list();
    let ask = full_ask(&list);
    let mut scratch = vec![77; SCRATCH];
    let n = MOST_STOPS + 1;
    assert_eq!(
        Ask { n, ..ask }.diameter(&mut scratch),
        Answer::Refused(refusal(3))
    );
    assert_eq!(office_check(&list, n), Office::Refused(refusal(3)));
    let longer = [&list[..], &list[..5]].concat();
    assert_eq!(
        office_check(&longer, MOST_STOPS),
        Office::Refused(refusal(2))
    );
    assert_eq!(
        ask.pivot_diameter(&pivots(MOST_PIVOTS + 1), &mut scratch),
        Answer::Refused(refusal(8))
    );
    assert!(scratch.iter().all(|&number| number == 77));
}

#[test]
fn one_place_less_is_refused() {
    let list = full_list();
    let ask = full_ask(&list);
    let (mut short, mut scratch) = (vec![77; SCRATCH - 1], vec![77; SCRATCH]);
    let (mut few, mut out) = (vec![77; STOPS - 1], vec![77; STOPS]);
    let mut most_of_table = vec![77; STOPS * STOPS - 1];
    let filled = [
        ask.distances_from(0, &mut few),
        ask.distances_to(0, &mut few, &mut scratch),
        ask.distances_to(0, &mut out, &mut short),
        ask.table(&mut most_of_table),
    ];
    assert_eq!(filled, [Filled::Refused(refusal(10)); 4]);
    assert_eq!(
        ask.backward_eccentricity(0, &mut short),
        Eccentricity::Refused(refusal(10))
    );
    let searched = [
        ask.diameter(&mut short),
        ask.pivot_diameter(&[], &mut short),
    ];
    assert_eq!(searched, [Answer::Refused(refusal(10)); 2]);
    let lent = [few, out, short, scratch, most_of_table].concat();
    assert!(lent.iter().all(|&number| number == 77));
}
