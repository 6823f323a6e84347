// The check of the ways against each other.
use crate::days;
use crate::days::Day;
use crate::odd;
use crate::ways::{ask, call_named, lent, lent_for, way_named, CALLS};

// All ways must give the same reply and leave the same lists.
fn compare(day: &Day, out: usize, scratch: usize, name: &str) {
    for call in CALLS {
        let mut found = Vec::new();
        for way in ["library", "plain", "lean", "textbook"] {
            let mut lent = lent(out, scratch);
            let reply = way_named(way)(ask(day), call_named(call, day), &mut lent);
            found.push((way, reply, lent.out, lent.scratch));
        }
        for other in &found[1..] {
            let same = (other.1, &other.2, &other.3) == (found[0].1, &found[0].2, &found[0].3);
            assert!(
                same,
                "{name}: {call} differs, library {:?}, {} {:?}",
                found[0].1, other.0, other.1
            );
        }
    }
}

pub fn check() {
    for name in days::NAMES {
        let day = days::named(name).expect("a day of that name");
        let lent = lent_for(&day);
        compare(&day, lent.out.len(), lent.scratch.len(), name);
    }
    let small = 2_000;
    for seed in 0..small {
        let odd = odd::odd(seed);
        compare(&odd.day, odd.out, odd.scratch, &format!("small day {seed}"));
    }
    println!(
        "{} days and {small} small days: all ways agree",
        days::NAMES.len()
    );
}
