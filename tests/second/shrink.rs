// A difference made small: all is struck out or lowered that it does not need to remain.

use std::ops::Range;
use std::time::{Duration, Instant};

use crate::ask::*;
use crate::check::{Finding, Kind};

const MOST_TIME: Duration = Duration::from_secs(30);

/// A row of the list, of the changed list, or (the asker's rows) of both.
#[derive(Clone)]
struct Entry {
    row: [u32; ROW],
    listed: bool,
    changed: bool,
}

/// A finding with its two lists as one sequence of rows.
#[derive(Clone)]
struct Shape {
    kind: Kind,
    ask: Ask,
    entries: Vec<Entry>,
    tail: Vec<u32>,
}

impl Shape {
    fn of(finding: &Finding) -> Shape {
        let ask = finding.ask.clone();
        let tail = ask.list[ask.list.len() / ROW * ROW..].to_vec();
        Shape {
            kind: finding.kind,
            entries: entries(finding),
            ask,
            tail,
        }
    }

    fn list(&self, listed: impl Fn(&Entry) -> bool) -> Vec<u32> {
        let entries = self.entries.iter().filter(|entry| listed(entry));
        let numbers = entries.flat_map(|entry| entry.row);
        numbers.chain(self.tail.iter().copied()).collect()
    }

    fn finding(&self) -> Finding {
        let mut ask = self.ask.clone();
        ask.list = self.list(|entry| entry.listed);
        let changed = match self.kind {
            Kind::Changed => self.list(|entry| entry.changed),
            _ => Vec::new(),
        };
        Finding {
            kind: self.kind,
            ask,
            changed,
        }
    }

    /// All numbers that may be lowered one by one.
    fn numbers(&mut self) -> Vec<&mut u32> {
        let ask = &mut self.ask;
        let mut numbers = vec![
            &mut ask.n,
            &mut ask.asker,
            &mut ask.a,
            &mut ask.w,
            &mut ask.stop,
        ];
        numbers.extend(ask.pivots.iter_mut());
        numbers.extend(self.entries.iter_mut().flat_map(|entry| &mut entry.row));
        numbers
    }

    /// All readings: A, W, pivots' readings, starts and arrivals.
    fn readings(&self) -> Vec<u64> {
        let ask = &self.ask;
        let mut readings = vec![u64::from(ask.a), u64::from(ask.w)];
        readings.extend(ask.pivots.iter().skip(1).step_by(2).map(|&s| u64::from(s)));
        for entry in &self.entries {
            let row = Row::of(&entry.row);
            readings.extend([u64::from(row.start), row.arrival()]);
        }
        readings.sort_unstable();
        readings.dedup();
        readings
    }

    /// All readings from `first` on moved towards 0 by `step`, which is at most `first`.
    fn move_readings(&mut self, first: u64, step: u64) {
        let moved = |reading: u64| reading - if reading >= first { step } else { 0 };
        let pivots = self.ask.pivots.iter_mut().skip(1).step_by(2);
        for reading in pivots.chain([&mut self.ask.a, &mut self.ask.w]) {
            *reading = moved(u64::from(*reading)) as u32;
        }
        for entry in &mut self.entries {
            let row = Row::of(&entry.row);
            let start = moved(u64::from(row.start));
            entry.row[2] = start as u32;
            entry.row[3] = moved(row.arrival()).saturating_sub(start) as u32;
        }
    }

    /// All stops: the named one, those of pivots and of rows.
    fn stops(&mut self) -> Vec<&mut u32> {
        let mut stops = vec![&mut self.ask.stop];
        stops.extend(self.ask.pivots.iter_mut().step_by(2));
        stops.extend(
            self.entries
                .iter_mut()
                .flat_map(|entry| &mut entry.row[..2]),
        );
        stops
    }
}

fn entries(finding: &Finding) -> Vec<Entry> {
    let entry = |row: Row, listed, changed| Entry {
        row: row.numbers(),
        listed,
        changed,
    };
    if finding.kind != Kind::Changed {
        let rows = finding.ask.rows().into_iter();
        return rows.map(|row| entry(row, true, false)).collect();
    }
    let mut entries = Vec::new();
    let mut others = finding.changed.chunks_exact(ROW).map(Row::of);
    for row in finding.ask.rows() {
        if !row.seen_by(finding.ask.asker) {
            entries.push(entry(row, true, false));
            continue;
        }
        let foreign = others
            .by_ref()
            .take_while(|other| !other.seen_by(finding.ask.asker));
        entries.extend(foreign.map(|other| entry(other, false, true)));
        entries.push(entry(row, true, true));
    }
    entries.extend(others.map(|other| entry(other, false, true)));
    entries
}

struct Shrinking {
    shape: Shape,
    end: Instant,
    improved: bool,
}

impl Shrinking {
    /// Takes the simpler shape if the difference remains.
    fn attempt(&mut self, shape: Shape) -> bool {
        let remains = Instant::now() < self.end && shape.finding().differs();
        if remains {
            self.shape = shape;
            self.improved = true;
        }
        remains
    }

    fn attempt_with(&mut self, change: impl Fn(&mut Shape)) -> bool {
        let mut shape = self.shape.clone();
        change(&mut shape);
        self.attempt(shape)
    }

    /// Rows struck out, first many at once, then fewer, down to `least` at once.
    fn strike_rows(&mut self, least: usize) {
        let mut width = self.shape.entries.len();
        while width >= least {
            let mut first = 0;
            while first < self.shape.entries.len() {
                let end = (first + width).min(self.shape.entries.len());
                if !self.attempt_with(|shape| drop(shape.entries.drain(first..end))) {
                    first += width;
                }
            }
            width /= 2;
        }
    }

    /// Rows made simple, many at once first, for a difference that needs a long list.
    fn simplify_rows(&mut self, least: usize) {
        let len = self.shape.entries.len();
        let mut width = len;
        while width >= least {
            for first in (0..len).step_by(width) {
                self.simplify_part(first..(first + width).min(len));
            }
            width /= 2;
        }
    }

    fn simplify_part(&mut self, part: Range<usize>) {
        let simple = |entry: &Entry| entry.row[..ROW - 1].iter().all(|&number| number <= 1);
        if self.shape.entries[part.clone()].iter().all(simple) {
            return;
        }
        self.attempt_with(|shape| {
            let entries = shape.entries[part.clone()].iter_mut();
            entries.for_each(|entry| entry.row[..ROW - 1].copy_from_slice(&[0, 1, 0, 1]));
        });
    }

    fn strike_others(&mut self) {
        for len in 0..self.shape.tail.len() {
            if self.attempt_with(|shape| shape.tail.truncate(len)) {
                break;
            }
        }
        for first in (0..self.shape.ask.pivots.len()).rev() {
            for width in [2, 1] {
                let end = (first + width).min(self.shape.ask.pivots.len());
                let left = first..end;
                if !left.is_empty() {
                    self.attempt_with(|shape| drop(shape.ask.pivots.drain(left.clone())));
                }
            }
        }
    }

    /// A greater stop renamed to a lower one everywhere.
    fn rename_stops(&mut self) {
        let mut stops: Vec<u32> = self.shape.stops().iter().map(|stop| **stop).collect();
        stops.sort_unstable();
        stops.dedup();
        for stop in stops {
            (0..stop.min(20)).any(|lower| {
                self.attempt_with(|shape| {
                    let mut stops = shape.stops();
                    let same = stops.iter_mut().filter(|other| ***other == stop);
                    same.for_each(|other| **other = lower);
                })
            });
        }
    }

    /// The readings brought closer together.
    fn close_gaps(&mut self) {
        for &reading in self.shape.readings().iter().rev() {
            let mut step = reading;
            while step > 0 {
                self.attempt_with(|shape| shape.move_readings(reading, step));
                step /= 2;
            }
        }
    }

    /// A number lowered by great steps, then by smaller ones.
    fn lower(&mut self, get: impl Fn(&mut Shape) -> u64, set: impl Fn(&mut Shape, u64)) {
        let mut step = get(&mut self.shape);
        while step > 0 {
            let lower = get(&mut self.shape).checked_sub(step);
            if !lower.is_some_and(|lower| self.attempt_with(|shape| set(shape, lower))) {
                step /= 2;
            }
        }
    }

    fn lower_numbers(&mut self) {
        for place in 0..self.shape.numbers().len() {
            self.lower(
                |shape| u64::from(*shape.numbers()[place]),
                |shape, lower| *shape.numbers()[place] = lower as u32,
            );
        }
    }

    fn simplify_lent(&mut self) {
        for junk in [0, 1] {
            let simpler = self.shape.ask.junk > junk;
            if simpler && self.attempt_with(|shape| shape.ask.junk = junk) {
                break;
            }
        }
        self.lower(
            |shape| shape.ask.out_len as u64,
            |shape, lower| shape.ask.out_len = lower as usize,
        );
        self.lower(
            |shape| shape.ask.scratch_len as u64,
            |shape, lower| shape.ask.scratch_len = lower as usize,
        );
    }

    /// Great parts of the list only, which keeps a long list from using up the time.
    fn coarsely(&mut self) {
        let least = self.shape.entries.len() / 16 + 1;
        self.strike_rows(least);
        self.simplify_rows(least);
        self.strike_others();
    }

    fn finely(&mut self) {
        self.strike_rows(1);
        self.simplify_rows(1);
        self.strike_others();
        self.rename_stops();
        self.close_gaps();
        self.lower_numbers();
        self.simplify_lent();
    }

    fn repeat(&mut self, pass: fn(&mut Shrinking)) {
        self.improved = true;
        while self.improved {
            self.improved = false;
            pass(self);
        }
    }
}

/// The smallest finding of the same kind that could be found.
pub fn shrink(finding: &Finding) -> Finding {
    let mut shrinking = Shrinking {
        shape: Shape::of(finding),
        end: Instant::now() + MOST_TIME,
        improved: false,
    };
    shrinking.repeat(Shrinking::coarsely);
    shrinking.repeat(Shrinking::finely);
    shrinking.shape.finding()
}
