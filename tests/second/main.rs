// Checks the figures library on many asks against the definitions, computed by another method.

mod ask;
mod asks;
mod cases;
mod changed;
mod check;
mod damage;
mod definitions;
mod library;
mod random;
mod report;
mod routes;
mod shrink;
mod table;

use std::process::ExitCode;
use std::time::{Duration, Instant, SystemTime, UNIX_EPOCH};

use random::Random;
use report::Counts;

const USAGE: &str = "usage: second [--seconds N] [--asks K] [--seed S]";
const DEFAULT_SECONDS: u64 = 10;

/// In a run of more asks than this every refusal number has to come.
const MANY_ASKS: u64 = 2_000;

#[derive(Default)]
struct Options {
    seconds: Option<u64>,
    asks: Option<u64>,
    seed: Option<u64>,
}

/// None for arguments that are not understood.
fn options(arguments: &[String]) -> Option<Options> {
    let mut options = Options::default();
    for pair in arguments.chunks(2) {
        let [name, number] = pair else { return None };
        let option = match name.as_str() {
            "--seconds" => &mut options.seconds,
            "--asks" => &mut options.asks,
            "--seed" => &mut options.seed,
            _ => return None,
        };
        if option.replace(number.parse().ok()?).is_some() {
            return None;
        }
    }
    if options.seconds.is_none() && options.asks.is_none() {
        options.seconds = Some(DEFAULT_SECONDS);
    }
    Some(options)
}

fn seed_of_clock() -> u64 {
    let since = SystemTime::now().duration_since(UNIX_EPOCH);
    random::mix(since.map_or(0, |time| time.as_nanos() as u64))
}

/// Asks until the budget is used up; whether no difference came.
fn run(options: &Options, seed: u64, counts: &mut Counts) -> bool {
    let start = Instant::now();
    let time = options.seconds.map(Duration::from_secs);
    for number in 0..options.asks.unwrap_or(u64::MAX) {
        if time.is_some_and(|time| start.elapsed() >= time) {
            break;
        }
        let mut random = Random::of_ask(seed, number);
        let made = asks::random_ask(&mut random);
        match check::check(&made.ask, &mut random) {
            Ok(checked) => counts.add(&made, &checked),
            Err(finding) => {
                report::print_finding(&shrink::shrink(&finding), seed, number);
                return false;
            }
        }
    }
    true
}

fn main() -> ExitCode {
    let arguments = std::env::args_os().skip(1);
    let arguments: Vec<String> = arguments.map(|a| a.to_string_lossy().into()).collect();
    let Some(options) = options(&arguments) else {
        eprintln!("{USAGE}");
        return ExitCode::from(2);
    };
    let seed = options.seed.unwrap_or_else(seed_of_clock);
    println!("seed {seed}");
    let cases_hold = cases::check();
    let mut counts = Counts::default();
    let same = run(&options, seed, &mut counts) && cases_hold;
    counts.print();
    let missing = counts.asks() > MANY_ASKS && !counts.all_refusals();
    if missing {
        println!("a number of 1 to 11 never came, or 12 came");
    }
    println!("differences: {}", if same { "none" } else { "found" });
    ExitCode::from(u8::from(!same || missing))
}
