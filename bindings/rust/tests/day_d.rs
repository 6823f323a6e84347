// Document 01's figures of day D through the wrapper, and what happens to lent lists.
mod day;

use day::{ask, refusal, DAY_D};
use figures::{office_check, Answer, Ask, Eccentricity, Filled, Office};
use figures::{HORIZON, SCRATCH, STACK, UNREACHED};

#[test]
fn distances_fill_the_first_places_and_keep_the_rest() {
    let mut out = [77; 7];
    assert_eq!(ask(7).distances_from(0, &mut out), Filled::Done);
    assert_eq!(out, [0, 20, 40, 60, 105, 77, 77]);
    let mut scratch = vec![77; SCRATCH + 2];
    assert_eq!(ask(9).distances_to(4, &mut out, &mut scratch), Filled::Done);
    assert_eq!(out, [35, 35, 105, 105, 0, 77, 77]);
    assert!(scratch[..SCRATCH].iter().all(|&number| number == 0));
    assert_eq!(scratch[SCRATCH..], [77, 77]);
}

#[test]
fn long_lists_are_brought_through() {
    let mut scratch = vec![77; 100_000];
    assert_eq!(
        ask(0).backward_eccentricity(4, &mut scratch),
        Eccentricity::Value(105)
    );
    assert!(scratch[..SCRATCH].iter().all(|&number| number == 0));
    assert!(scratch[SCRATCH..].iter().all(|&number| number == 77));
    let list = vec![0; 20_000];
    let long = Ask {
        list: &list,
        ..ask(0)
    };
    assert_eq!(
        long.forward_eccentricity(0),
        Eccentricity::Refused(refusal(2, 0))
    );
}

#[test]
fn each_source_has_its_stretch_of_the_table() {
    let mut out = [77; 26];
    assert_eq!(ask(0).table(&mut out), Filled::Done);
    assert_eq!(out[..5], [0, 20, 50, 90, 105]);
    assert_eq!(out[10..15], [UNREACHED, UNREACHED, 0, 60, 105]);
    assert_eq!(out[25], 77);
}

#[test]
fn eccentricities_are_values_or_nothing() {
    let mut scratch = vec![0; SCRATCH];
    assert_eq!(ask(9).forward_eccentricity(0), Eccentricity::Value(90));
    assert_eq!(ask(0).forward_eccentricity(4), Eccentricity::Nothing);
    assert_eq!(
        ask(0).backward_eccentricity(4, &mut scratch),
        Eccentricity::Value(105)
    );
    assert_eq!(
        ask(0).forward_eccentricity(5),
        Eccentricity::Refused(refusal(7, 0))
    );
}

#[test]
fn diameters_have_pair_and_visits() {
    let mut scratch = vec![0; SCRATCH];
    let value = |value, from, to, visits| Answer::Value {
        value,
        from,
        to,
        visits,
    };
    assert_eq!(ask(9).diameter(&mut scratch), value(105, 2, 4, 1));
    let two = [3, 250, 2, 150];
    assert_eq!(
        ask(0).pivot_diameter(&two, &mut scratch),
        value(105, 0, 4, 2)
    );
    assert_eq!(
        ask(0).pivot_diameter(&[], &mut scratch),
        Answer::Nothing { visits: 0 }
    );
    let short = Ask { w: 110, ..ask(0) };
    assert_eq!(
        short.pivot_diameter(&[0, 105], &mut scratch),
        Answer::Nothing { visits: 1 }
    );
}

#[test]
fn a_refusal_changes_no_list() {
    let mut scratch = vec![77; SCRATCH - 1];
    let mut out = [77; 5];
    assert_eq!(
        ask(0).distances_to(4, &mut out, &mut scratch),
        Filled::Refused(refusal(10, 0))
    );
    assert_eq!(out, [77; 5]);
    assert!(scratch.iter().all(|&number| number == 77));
    assert_eq!(
        ask(0).distances_from(0, &mut []),
        Filled::Refused(refusal(10, 0))
    );
}

#[test]
fn the_office_check_reads_all_rows() {
    assert_eq!(office_check(&DAY_D, 5), Office::Rows(7));
    assert_eq!(office_check(&DAY_D, 4), Office::Refused(refusal(6, 3)));
    assert_eq!(
        office_check(&[0, 1, HORIZON - 1, 1, 256], 2),
        Office::Refused(refusal(11, 0))
    );
}

#[test]
fn threads_ask_at_once() {
    let of_one_thread = |asker: u32| {
        let mut scratch = vec![0; SCRATCH];
        (0..50).all(|_| {
            let from = if asker == 9 { 2 } else { 0 };
            ask(asker).diameter(&mut scratch)
                == Answer::Value {
                    value: 105,
                    from,
                    to: 4,
                    visits: 1,
                }
        })
    };
    let threads: Vec<_> = [0, 7, 9, 0, 7, 9]
        .into_iter()
        .map(|asker| {
            let thread = std::thread::Builder::new().stack_size(STACK);
            thread.spawn(move || of_one_thread(asker)).unwrap()
        })
        .collect();
    for thread in threads {
        assert!(thread.join().unwrap());
    }
}
