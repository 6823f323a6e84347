// What a run prints: the counts of its asks, and a difference with all that is needed to ask again.

use crate::ask::*;
use crate::asks::{Made, Size};
use crate::check::{Checked, Finding, Kind};
use crate::random::STEP;

const COLUMNS: [&str; 11] = [
    "asks", "answered", "none", "refused", "short", "middle", "long", "sound", "damaged",
    "changed", "routes",
];

/// How many asks there were of each call and column, and how often each refusal number came.
#[derive(Default)]
pub struct Counts {
    calls: [[u64; COLUMNS.len()]; CALLS.len()],
    refusals: [u64; 13],
    /// Answers of the two searches with more than one visit.
    visited: u64,
}

/// The columns that an ask is counted in.
fn columns(made: &Made, checked: &Checked) -> Vec<&'static str> {
    let outcome = match checked.reply[0] {
        REFUSED => "refused",
        NONE => "none",
        _ => "answered",
    };
    let size = match made.size {
        Size::Short => "short",
        Size::Middle => "middle",
        Size::Long => "long",
    };
    let soundness = if made.damaged { "damaged" } else { "sound" };
    let mut columns = vec!["asks", outcome, size, soundness];
    columns.extend(checked.changed.then_some("changed"));
    columns.extend(checked.all_routes.then_some("routes"));
    columns
}

impl Counts {
    pub fn add(&mut self, made: &Made, checked: &Checked) {
        let columns = columns(made, checked);
        for (call, row) in CALLS.iter().zip(&mut self.calls) {
            let counts = COLUMNS.iter().zip(row);
            let counted =
                counts.filter(|(name, _)| *call == made.ask.call && columns.contains(name));
            counted.for_each(|(_, count)| *count += 1);
        }
        match checked.reply {
            [REFUSED, number, ..] => self.refusals[number as usize] += 1,
            [.., visits] => self.visited += u64::from(visits > 1),
        }
    }

    pub fn asks(&self) -> u64 {
        self.calls.iter().map(|row| row[0]).sum()
    }

    /// Whether each number of 1 to 11 came, and 12 did not.
    pub fn all_refusals(&self) -> bool {
        self.refusals[1..=11].iter().all(|&count| count > 0) && self.refusals[12] == 0
    }

    pub fn print(&self) {
        let print_row = |name: &str, fields: Vec<String>| {
            let fields: Vec<String> = fields.iter().map(|field| format!("{field:>9}")).collect();
            println!("{name:<30}{}", fields.concat());
        };
        print_row("call", COLUMNS.map(String::from).to_vec());
        for (call, row) in CALLS.iter().zip(self.calls) {
            print_row(call.name(), row.map(|count| count.to_string()).to_vec());
        }
        let column = |place: usize| self.calls.iter().map(|row| row[place]).sum::<u64>();
        let totals = (0..COLUMNS.len()).map(|place| column(place).to_string());
        print_row("all", totals.collect());
        println!("damaged: in one way or more, of which some lead to no refusal");
        println!("changed: asked again with changed foreign rows");
        println!("routes: compared with all routes");
        println!("searches with more than one visit: {}", self.visited);
        let refusals = self.refusals.iter().enumerate().skip(1);
        let refusals: Vec<String> = refusals
            .map(|(number, count)| format!("{number}: {count}"))
            .collect();
        println!("refusals by number: {}", refusals.join(", "));
    }
}

fn numbers(list: &[u32]) -> String {
    let numbers: Vec<String> = list.iter().map(|number| number.to_string()).collect();
    numbers.join(", ")
}

/// A list as C writes it, `width` numbers a line where it is long.
fn print_list(name: &str, list: &[u32], width: usize) {
    println!("    {name}, {} numbers: {{", list.len());
    for line in list.chunks(width) {
        println!("        {},", numbers(line));
    }
    println!("    }}");
}

fn print_ask(ask: &Ask) {
    println!("{}", ask.call.name());
    print_list("list", &ask.list, ROW);
    println!("    n {}", ask.n);
    if ask.call != Call::OfficeCheck {
        println!("    asker {}, a {}, w {}", ask.asker, ask.a, ask.w);
    }
    if ask.call.takes_stop() {
        println!("    source, target or stop {}", ask.stop);
    }
    if ask.call == Call::PivotDiameter {
        print_list("pivots", &ask.pivots, 2);
    }
    let before = match u32::try_from(ask.junk) {
        Ok(number) => format!("each {number} before the call"),
        Err(_) => format!("place i is ((i + {}) * {STEP}) >> 32 before", ask.junk),
    };
    if ask.call.takes_out() {
        println!("    out, {} numbers, {before}", ask.out_len);
    }
    if ask.call.takes_scratch() {
        println!("    scratch, {} numbers, {before}", ask.scratch_len);
    }
}

/// The first place where two lists differ, and how many such places there are.
fn print_places(name: &str, expected: &[u32], came: &[u32]) {
    let pairs = expected.iter().zip(came).enumerate();
    let mut differing = pairs.filter(|(_, (expected, came))| expected != came);
    if let Some((place, (expected, came))) = differing.next() {
        let more = differing.count();
        println!("    {name}[{place}]: expected {expected}, came {came}; {more} more differ");
    }
}

pub fn print_difference(ask: &Ask, expected: &Outcome, came: &Outcome) {
    print_ask(ask);
    println!("    expected reply: {}", numbers(&expected.reply));
    println!("    reply that came: {}", numbers(&came.reply));
    print_places("out", &expected.out, &came.out);
    print_places("scratch", &expected.scratch, &came.scratch);
    if expected.kept != came.kept {
        println!("    a list that is only read, or a place beside a lent list, was changed");
    }
}

pub fn print_finding(finding: &Finding, seed: u64, number: u64) {
    let kind = match finding.kind {
        Kind::Library => "the library differs from the definitions",
        Kind::Methods => "the fixpoint differs from all routes",
        Kind::Changed => "changed foreign rows change the outcome",
    };
    println!("difference: {kind} (seed {seed}, ask {number}), the smallest found:");
    let (expected, came) = finding.outcomes();
    print_difference(&finding.ask, &expected, &came);
    if finding.kind == Kind::Changed {
        println!("    expected is the outcome over the list above, what came is that over:");
        print_list("changed list", &finding.changed, ROW);
    }
}
