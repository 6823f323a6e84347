// The least arrivals of compatible routes, by two methods: sets of sources that grow until nothing
// changes, and all routes one by one.

use crate::ask::Row;
use crate::random::Random;

#[derive(Clone, Copy)]
pub enum Method {
    /// The rows are taken in an order shuffled by this seed.
    Fixpoint(u64),
    AllRoutes,
}

/// The least arrival of a route for each source and target. A route that comes back to its source
/// is kept here too.
pub struct Arrivals {
    n: usize,
    least: Vec<Option<u32>>,
}

impl Arrivals {
    fn none(n: usize) -> Arrivals {
        Arrivals {
            n,
            least: vec![None; n * n],
        }
    }

    pub fn of(&self, source: usize, target: usize) -> Option<u32> {
        self.least[source * self.n + target]
    }

    fn add(&mut self, source: usize, target: usize, arrival: u32) {
        let least = &mut self.least[source * self.n + target];
        *least = Some(least.map_or(arrival, |other| other.min(arrival)));
    }
}

/// Routes over sound rows that start at `first` or later and arrive by `last`.
pub fn arrivals(rows: &[Row], n: usize, first: u32, last: u32, method: Method) -> Arrivals {
    match method {
        Method::Fixpoint(seed) => by_fixpoint(rows, n, first, last, seed),
        Method::AllRoutes => by_all_routes(rows, n, first, last),
    }
}

fn arrival(row: &Row) -> u32 {
    row.start + row.travel
}

/// Whether `next` may come right after `row` in a route.
fn follows(next: &Row, row: &Row) -> bool {
    next.from == row.to && next.start >= arrival(row)
}

/// A set of stops, a bit for each.
#[derive(Clone, Copy, PartialEq)]
struct Stops([u64; 4]);

impl Stops {
    const EMPTY: Stops = Stops([0; 4]);

    fn add(&mut self, stop: usize) {
        self.0[stop / 64] |= 1 << (stop % 64);
    }

    fn holds(&self, stop: usize) -> bool {
        self.0[stop / 64] >> (stop % 64) & 1 == 1
    }

    fn join(&mut self, other: &Stops) {
        for (word, others) in self.0.iter_mut().zip(other.0) {
            *word |= others;
        }
    }

    fn all(n: usize) -> Stops {
        let mut stops = Stops::EMPTY;
        (0..n).for_each(|stop| stops.add(stop));
        stops
    }
}

/// For each row, the sources from which a route ends with this row.
struct Sources<'a> {
    rows: &'a [Row],
    all: Stops,
    sets: Vec<Stops>,
    into: Vec<Vec<usize>>,
    /// For each stop, how often the set of a row into it has grown.
    growths: Vec<u32>,
    /// For each row, the growths of its from-stop that it has taken over.
    taken: Vec<Option<u32>>,
}

impl Sources<'_> {
    fn new(rows: &[Row], n: usize) -> Sources<'_> {
        let mut into = vec![Vec::new(); n];
        for (number, row) in rows.iter().enumerate() {
            into[row.to as usize].push(number);
        }
        Sources {
            rows,
            all: Stops::all(n),
            sets: vec![Stops::EMPTY; rows.len()],
            into,
            growths: vec![0; n],
            taken: vec![None; rows.len()],
        }
    }

    /// The row's set by its definition, from the other rows' sets as they are now.
    fn set_of(&self, number: usize, first: u32) -> Stops {
        let row = &self.rows[number];
        let mut set = self.sets[number];
        if row.start >= first {
            set.add(row.from as usize);
        }
        for &before in &self.into[row.from as usize] {
            if set == self.all {
                break;
            }
            if follows(row, &self.rows[before]) {
                set.join(&self.sets[before]);
            }
        }
        set
    }

    /// Whether the row's set has grown. A row whose from-stop brings nothing new is not looked at.
    fn grow(&mut self, number: usize, first: u32) -> bool {
        let from = self.rows[number].from as usize;
        if self.taken[number] == Some(self.growths[from]) {
            return false;
        }
        self.taken[number] = Some(self.growths[from]);
        let set = self.set_of(number, first);
        let grown = set != self.sets[number];
        if grown {
            self.sets[number] = set;
            self.growths[self.rows[number].to as usize] += 1;
        }
        grown
    }
}

fn by_fixpoint(rows: &[Row], n: usize, first: u32, last: u32, seed: u64) -> Arrivals {
    let mut rows = rows.to_vec();
    Random::new(seed).shuffle(&mut rows);
    // Each row of a route arrives later than the one before, so that none arrives after `last`.
    rows.retain(|row| arrival(row) <= last);
    let mut sources = Sources::new(&rows, n);
    let mut changed = true;
    while changed {
        changed = false;
        for number in 0..rows.len() {
            changed |= sources.grow(number, first);
        }
    }
    least_arrivals(&rows, &sources.sets, n)
}

fn least_arrivals(rows: &[Row], sets: &[Stops], n: usize) -> Arrivals {
    let mut arrivals = Arrivals::none(n);
    for (row, set) in rows.iter().zip(sets) {
        for source in (0..n).filter(|&stop| set.holds(stop)) {
            arrivals.add(source, row.to as usize, arrival(row));
        }
    }
    arrivals
}

/// A route in the making: its source, and where and when it has come to.
struct AllRoutes<'a> {
    rows: &'a [Row],
    last: u32,
    arrivals: Arrivals,
}

impl AllRoutes<'_> {
    /// The route that ends with `row`, and all that go on from it.
    fn go_on(&mut self, source: usize, row: &Row) {
        if arrival(row) <= self.last {
            self.arrivals.add(source, row.to as usize, arrival(row));
        }
        let rows = self.rows;
        for next in rows.iter().filter(|next| follows(next, row)) {
            self.go_on(source, next);
        }
    }
}

fn by_all_routes(rows: &[Row], n: usize, first: u32, last: u32) -> Arrivals {
    let mut routes = AllRoutes {
        rows,
        last,
        arrivals: Arrivals::none(n),
    };
    for row in rows.iter().filter(|row| row.start >= first) {
        routes.go_on(row.from as usize, row);
    }
    routes.arrivals
}
