// Asks over day D, five stops and seven rows, two of them of clients 7 and 9, and prints what comes.
use figures::{office_check, Answer, Ask, Filled, Office, SCRATCH, UNREACHED};

const STOPS: usize = 5;

/// from, to, start, travel, owner
#[rustfmt::skip]
const DAY_D: [u32; 35] = [
    0, 1, 100, 20, 0,
    1, 2, 120, 30, 0,
    0, 2, 130, 10, 7,
    1, 4, 130, 5, 9,
    2, 3, 145, 15, 0,
    2, 3, 150, 40, 0,
    3, 4, 200, 5, 0,
];

fn ask(asker: u32, a: u32, w: u32) -> Ask<'static> {
    Ask {
        list: &DAY_D,
        n: STOPS as u32,
        asker,
        a,
        w,
    }
}

fn answer_text(answer: Answer) -> String {
    match answer {
        Answer::Value {
            value,
            from,
            to,
            visits,
        } => {
            format!("{value} from {from} to {to}, visits {visits}")
        }
        Answer::Nothing { visits } => format!("none, visits {visits}"),
        Answer::Refused(refusal) => refusal.to_string(),
    }
}

fn distances_text(source: u32) -> String {
    let mut out = [0; STOPS];
    if let Filled::Refused(refusal) = ask(0, 100, 300).distances_from(source, &mut out) {
        return refusal.to_string();
    }
    let shown = |distance| match distance {
        UNREACHED => "unreached".to_string(),
        seconds => seconds.to_string(),
    };
    out.map(shown).join(" ")
}

fn office_text(n: u32) -> String {
    match office_check(&DAY_D, n) {
        Office::Rows(rows) => format!("{rows} rows"),
        Office::Refused(refusal) => refusal.to_string(),
    }
}

fn main() {
    let mut scratch = vec![0; SCRATCH];
    for (asker, a, w) in [
        (0, 100, 300),
        (7, 100, 300),
        (9, 100, 300),
        (0, 100, 100),
        (0, 300, 100),
    ] {
        let answer = ask(asker, a, w).diameter(&mut scratch);
        println!(
            "diameter for asker {asker}, {a} to {w}: {}",
            answer_text(answer)
        );
    }
    for (stop, reading) in [(2, 150), (2, 99)] {
        let answer = ask(0, 100, 199).pivot_diameter(&[stop, reading], &mut scratch);
        println!(
            "pivot-diameter by stop {stop} at {reading}: {}",
            answer_text(answer)
        );
    }
    for source in [0, 2, 5] {
        println!("distances from {source}: {}", distances_text(source));
    }
    for n in [5, 4] {
        println!("office check with {n} stops: {}", office_text(n));
    }
}
