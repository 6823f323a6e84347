// The figures from the least arrivals, as the definitions word them, and the outcome of an ask.

use std::cmp::Reverse;

use crate::ask::*;
use crate::routes::{arrivals, Arrivals, Method};
use crate::table::refusal;

/// The asker's rows over an interval, with the distances between stops.
pub struct Day {
    rows: Vec<Row>,
    n: usize,
    a: u32,
    w: u32,
    method: Method,
    arrivals: Arrivals,
}

impl Day {
    /// Of an ask that is not refused.
    pub fn of(ask: &Ask, method: Method) -> Day {
        let rows = ask.own_rows();
        let n = ask.n as usize;
        let arrivals = arrivals(&rows, n, ask.a, ask.w, method);
        Day {
            rows,
            n,
            a: ask.a,
            w: ask.w,
            method,
            arrivals,
        }
    }

    fn distance(&self, source: usize, target: usize) -> Option<u32> {
        if source == target {
            return Some(0);
        }
        Some(self.arrivals.of(source, target)? - self.a)
    }

    /// The distance as a number of a list.
    fn number(&self, source: usize, target: usize) -> u32 {
        self.distance(source, target).unwrap_or(UNREACHED)
    }

    fn forward_eccentricity(&self, stop: usize) -> Option<u32> {
        let others = (0..self.n).filter(|&target| target != stop);
        others
            .filter_map(|target| self.distance(stop, target))
            .max()
    }

    fn backward_eccentricity(&self, stop: usize) -> Option<u32> {
        let others = (0..self.n).filter(|&source| source != stop);
        others
            .filter_map(|source| self.distance(source, stop))
            .max()
    }

    /// The latest arrival of compatible rows into the stop, less A.
    fn latest(&self, stop: usize) -> Option<u32> {
        let compatible = |row: &&Row| row.start >= self.a && row.start + row.travel <= self.w;
        let into = |row: &&Row| row.to as usize == stop;
        let rows = self.rows.iter().filter(compatible).filter(into);
        Some(rows.map(|row| row.start + row.travel).max()? - self.a)
    }
}

/// A stop that a search may visit: its bound, and its greatest distance from a counted source
/// with the lowest such source.
pub struct Target {
    stop: u32,
    pub bound: u32,
    farthest: Option<(u32, u32)>,
}

impl Target {
    fn eccentricity(&self) -> Option<u32> {
        self.farthest.map(|(distance, _)| distance)
    }
}

/// The pairs that a search counts, and the bounds of the stops that are its targets.
struct Search {
    n: usize,
    counted: Vec<Option<u32>>,
    bounds: Vec<Option<u32>>,
}

impl Search {
    fn over_reached_pairs(day: &Day) -> Search {
        let pair = |place: usize| (place / day.n, place % day.n);
        let counted = (0..day.n * day.n).map(pair).map(|(source, target)| {
            let different = source != target;
            different.then(|| day.distance(source, target)).flatten()
        });
        Search {
            n: day.n,
            counted: counted.collect(),
            bounds: (0..day.n).map(|stop| day.latest(stop)).collect(),
        }
    }

    /// None where a joined pair has no distance.
    fn over_joined_pairs(day: &Day, pivots: &[u32]) -> Option<Search> {
        let mut search = Search {
            n: day.n,
            counted: vec![None; day.n * day.n],
            bounds: vec![None; day.n],
        };
        for pivot in pivots.chunks_exact(2) {
            search.add_pivot(day, pivot[0] as usize, pivot[1])?;
        }
        Some(search)
    }

    fn add_pivot(&mut self, day: &Day, p: usize, s: u32) -> Option<()> {
        let before = arrivals(&day.rows, day.n, day.a, s, day.method);
        let after = arrivals(&day.rows, day.n, s, day.w, day.method);
        let comes = |source: usize| source == p || before.of(source, p).is_some();
        let sources: Vec<usize> = (0..day.n).filter(|&source| comes(source)).collect();
        for target in 0..day.n {
            let reached = if target == p {
                Some(s)
            } else {
                after.of(p, target)
            };
            let Some(arrival) = reached else { continue };
            self.bounds[target] = self.bounds[target].max(Some(arrival - day.a));
            for &source in sources.iter().filter(|&&source| source != target) {
                self.counted[source * day.n + target] = Some(day.distance(source, target)?);
            }
        }
        Some(())
    }

    fn farthest(&self, target: usize) -> Option<(u32, u32)> {
        let distance = |source: usize| self.counted[source * self.n + target];
        let greatest = (0..self.n).filter_map(distance).max()?;
        let source = (0..self.n).find(|&source| distance(source) == Some(greatest))?;
        Some((greatest, source as u32))
    }

    /// By falling bound, then rising number.
    fn targets(&self) -> Vec<Target> {
        let target = |stop: usize| {
            Some(Target {
                stop: stop as u32,
                bound: self.bounds[stop]?,
                farthest: self.farthest(stop),
            })
        };
        let mut targets: Vec<Target> = (0..self.n).filter_map(target).collect();
        targets.sort_by_key(|target| (Reverse(target.bound), target.stop));
        targets
    }

    fn reply(&self) -> Reply {
        let targets = self.targets();
        let visits = visits(&targets);
        let Some(greatest) = self.counted.iter().copied().flatten().max() else {
            return [NONE, 0, 0, 0, visits];
        };
        let shown = targets
            .iter()
            .find(|target| target.eccentricity() == Some(greatest));
        let shown = shown.expect("the target of a counted pair is a target of the search");
        let (_, source) = shown.farthest.expect("it has an eccentricity");
        [ANSWER, greatest, source, shown.stop, visits]
    }
}

/// The number of targets taken before the stop or the end.
fn visits(targets: &[Target]) -> u32 {
    let mut best = 0;
    let mut visits = 0;
    for target in targets {
        if target.bound <= best {
            break;
        }
        best = best.max(target.eccentricity().unwrap_or(0));
        visits += 1;
    }
    visits
}

/// The targets' bounds in the order of visiting, for the cases that name them.
pub fn pivot_bounds(ask: &Ask, method: Method) -> Vec<u32> {
    let search = Search::over_joined_pairs(&Day::of(ask, method), &ask.pivots);
    let targets = search.map_or(Vec::new(), |search| search.targets());
    targets.iter().map(|target| target.bound).collect()
}

fn value(eccentricity: Option<u32>) -> Reply {
    match eccentricity {
        Some(value) => [ANSWER, value, 0, 0, 0],
        None => [NONE, 0, 0, 0, 0],
    }
}

fn list(numbers: impl Iterator<Item = u32>) -> (Reply, Vec<u32>) {
    ([ANSWER, 0, 0, 0, 0], numbers.collect())
}

/// The reply to an ask that is not refused, and the numbers that `out` is filled with.
fn answer(ask: &Ask, method: Method) -> (Reply, Vec<u32>) {
    if ask.call == Call::OfficeCheck {
        let rows = (ask.list.len() / ROW) as u32;
        return ([ANSWER, rows, 0, 0, 0], Vec::new());
    }
    let day = Day::of(ask, method);
    let stop = ask.stop as usize;
    let n = day.n;
    let reply = match ask.call {
        Call::DistancesFrom => return list((0..n).map(|target| day.number(stop, target))),
        Call::DistancesTo => return list((0..n).map(|source| day.number(source, stop))),
        Call::Table => return list((0..n * n).map(|place| day.number(place / n, place % n))),
        Call::ForwardEccentricity => value(day.forward_eccentricity(stop)),
        Call::BackwardEccentricity => value(day.backward_eccentricity(stop)),
        Call::Diameter => Search::over_reached_pairs(&day).reply(),
        _ => match Search::over_joined_pairs(&day, &ask.pivots) {
            Some(search) => search.reply(),
            None => [REFUSED, 12, 0, 0, 0],
        },
    };
    (reply, Vec::new())
}

pub fn outcome(ask: &Ask, method: Method) -> Outcome {
    match refusal(ask) {
        Some((number, place)) => Outcome::of(ask, [REFUSED, number, place, 0, 0], &[]),
        None => {
            let (reply, filled) = answer(ask, method);
            Outcome::of(ask, reply, &filled)
        }
    }
}
