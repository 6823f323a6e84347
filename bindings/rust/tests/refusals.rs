// Every refusal of the table by calls of the wrapper: its number, its place, and the sentence that bindings/refusals.out has.
mod day;

use day::{ask, refusal, DAY_D};
use figures::{office_check, Answer, Ask, Eccentricity, Filled, Office, Refusal};
use figures::{HORIZON, MOST_PIVOTS, MOST_ROWS, MOST_STOPS, ROW, SCRATCH};

fn of_filled(filled: Filled) -> Refusal {
    match filled {
        Filled::Refused(refusal) => refusal,
        Filled::Done => panic!("it is filled"),
    }
}

fn of_eccentricity(eccentricity: Eccentricity) -> Refusal {
    match eccentricity {
        Eccentricity::Refused(refusal) => refusal,
        answer => panic!("{answer:?}"),
    }
}

fn of_answer(answer: Answer) -> Refusal {
    match answer {
        Answer::Refused(refusal) => refusal,
        answer => panic!("{answer:?}"),
    }
}

fn of_office(office: Office) -> Refusal {
    match office {
        Office::Refused(refusal) => refusal,
        Office::Rows(rows) => panic!("{rows} rows"),
    }
}

fn diameter(ask: Ask) -> Refusal {
    of_answer(ask.diameter(&mut [0; SCRATCH]))
}

fn by_pivots(pivots: &[u32]) -> Refusal {
    of_answer(ask(0).pivot_diameter(pivots, &mut [0; SCRATCH]))
}

/// Day D with an owner that is no client's in its third row.
fn overowned() -> [u32; 35] {
    let mut list = DAY_D;
    list[2 * ROW + 4] = 256;
    list
}

fn one_of_each() -> [Refusal; 11] {
    let list = &DAY_D[..34];
    let long = vec![0; ROW * (MOST_ROWS + 1)];
    let room = &mut [0; SCRATCH];
    [
        of_filled(Ask { list, ..ask(0) }.distances_from(0, &mut [0; 5])),
        diameter(Ask {
            list: &long,
            ..ask(0)
        }),
        of_filled(Ask { n: 257, ..ask(0) }.table(room)),
        of_eccentricity(ask(256).forward_eccentricity(0)),
        diameter(Ask { w: 99, ..ask(0) }),
        of_eccentricity(Ask { n: 4, ..ask(0) }.forward_eccentricity(0)),
        of_eccentricity(ask(0).backward_eccentricity(5, room)),
        by_pivots(&[2, 150, 2]),
        by_pivots(&[2, 100, 2, 300, 5, 150]),
        of_filled(ask(0).table(&mut [0; 24])),
        of_office(office_check(&overowned(), 5)),
    ]
}

#[test]
fn each_number_has_its_sentence_and_place() {
    let said = one_of_each().map(|refusal| refusal.to_string());
    let stored: Vec<&str> = include_str!("../../refusals.out").lines().collect();
    assert_eq!(said.to_vec(), stored);
    assert_eq!(
        refusal(12, 0).to_string(),
        "refused 12: a joined pair without a route"
    );
}

#[test]
fn each_half_of_a_condition_is_refused() {
    assert_eq!(diameter(Ask { n: 0, ..ask(0) }), refusal(3, 0));
    let n = MOST_STOPS + 1;
    assert_eq!(diameter(Ask { n, ..ask(0) }), refusal(3, 0));
    let w = HORIZON + 1;
    assert_eq!(diameter(Ask { w, ..ask(0) }), refusal(5, 0));
    let many = [2, 150].repeat(MOST_PIVOTS + 1);
    assert_eq!(by_pivots(&many), refusal(8, 0));
    assert_eq!(by_pivots(&[2, 100, 2, 99]), refusal(9, 1));
    assert_eq!(by_pivots(&[2, 301]), refusal(9, 0));
}

#[test]
fn each_call_tells_the_place() {
    let room = &mut [0; SCRATCH];
    let few = |asker| Ask { n: 4, ..ask(asker) };
    let all = [
        of_filled(few(9).distances_from(0, &mut [0; 5])),
        of_filled(few(9).distances_to(0, &mut [0; 5], room)),
        of_filled(few(9).table(&mut [0; 25])),
        of_eccentricity(few(9).forward_eccentricity(0)),
        of_eccentricity(few(9).backward_eccentricity(0, room)),
        of_answer(few(9).diameter(room)),
        of_answer(few(9).pivot_diameter(&[], room)),
    ];
    assert_eq!(all, [refusal(6, 2); 7]);
    assert_eq!(diameter(few(7)), refusal(6, 5));
    assert_eq!(of_office(office_check(&DAY_D, 4)), refusal(6, 3));
}
