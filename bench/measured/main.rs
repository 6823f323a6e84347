// Measures one call of the library, of plain Rust or of the text-book way on one day, and checks them against each other.
mod calls;
mod check;
mod days;
mod lean;
mod library;
mod odd;
mod plain;
mod random;
mod textbook;
mod ways;

use calls::{Call, Lent};
use days::Day;
use std::hint::black_box;
use std::time::Instant;
use ways::{ask, call_named, lent_for, way_named, Way, CALLS};

const USAGE: &str =
    "measured check | show DAY | write DAY | time WAY CALL DAY | times WAY CALL DAY K";

fn main() {
    let words: Vec<String> = std::env::args().skip(1).collect();
    let words: Vec<&str> = words.iter().map(String::as_str).collect();
    match words[..] {
        ["check"] => check::check(),
        ["show", day] => show(&day_named(day)),
        ["write", day] => write(&day_named(day)),
        ["time", way, call, day] => {
            println!("{:e}", time(way_named(way), call, &day_named(day)));
        }
        ["times", way, call, day, k] => {
            let k = k.parse().expect(USAGE);
            times(way_named(way), call, &day_named(day), k);
        }
        _ => panic!("{USAGE}"),
    }
}

fn day_named(name: &str) -> Day {
    days::named(name).unwrap_or_else(|| panic!("no day {name}"))
}

// One line for each call: its name, the library's reply, and the list where it fills one.
fn show(day: &Day) {
    for call in CALLS {
        let mut lent = lent_for(day);
        let reply = library::reply(ask(day), call_named(call, day), &mut lent);
        let places = match call {
            "distances_from" | "distances_to" => day.n as usize,
            "table" => (day.n * day.n) as usize,
            _ => 0,
        };
        println!(
            "{call} {} {}",
            numbers(&reply),
            numbers(&lent.out[..places])
        );
    }
}

// The day in three lines: n, asker, a, w, source and target; the pivots; the list.
fn write(day: &Day) {
    println!(
        "{}",
        numbers(&[day.n, day.asker, day.a, day.w, day.source, day.target])
    );
    println!("{}", numbers(&day.pivots));
    println!("{}", numbers(&day.list));
}

fn numbers(list: &[u32]) -> String {
    let words: Vec<String> = list.iter().map(u32::to_string).collect();
    words.join(" ")
}

fn times(way: Way, call: &str, day: &Day, k: usize) {
    let mut lent = lent_for(day);
    repeat(way, call_named(call, day), day, &mut lent, k);
}

fn repeat(way: Way, call: Call, day: &Day, lent: &mut Lent, k: usize) {
    for _ in 0..k {
        black_box(way(black_box(ask(day)), black_box(call), lent));
    }
}

// Seconds a call: the median of 21 batches, each of a millisecond at least.
fn time(way: Way, call: &str, day: &Day) -> f64 {
    let mut lent = lent_for(day);
    let call = call_named(call, day);
    let mut batch = |k| {
        let begun = Instant::now();
        repeat(way, call, day, &mut lent, k);
        begun.elapsed().as_secs_f64()
    };
    let mut k = 1;
    while batch(k) < 1e-3 {
        k *= 2;
    }
    let mut seconds: Vec<f64> = (0..21).map(|_| batch(k) / k as f64).collect();
    seconds.sort_by(f64::total_cmp);
    seconds[10]
}
