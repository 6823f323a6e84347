// The text-book way: a scan from every source makes the whole table, and the answer is looked up in it.
// What needs one source only, the distances from it and its forward eccentricity, makes one scan.
use crate::calls::{eccentricity, filled, office, widest};
use crate::calls::{Ask, Call, Lent, Refusal, Reply, Search, SCRATCH, UNREACHED};
use crate::plain::checks;
use crate::plain::checks::{check_pivots, check_room, check_stop, Row};

#[inline(never)]
pub fn reply(ask: Ask, call: Call, lent: &mut Lent) -> Reply {
    let (out, scratch) = (&mut lent.out[..], &mut lent.scratch[..]);
    match call {
        Call::DistancesFrom(source) => filled(distances_from(ask, source, out)),
        Call::DistancesTo(target) => filled(distances_to(ask, target, out, scratch)),
        Call::Table => filled(table(ask, out)),
        Call::ForwardEccentricity(stop) => eccentricity(forward_eccentricity(ask, stop)),
        Call::BackwardEccentricity(stop) => eccentricity(backward_eccentricity(ask, stop, scratch)),
        Call::Diameter => widest(diameter(ask, scratch)),
        Call::PivotDiameter(pivots) => widest(pivot_diameter(ask, pivots, scratch)),
        Call::OfficeCheck => office(checks::office_check(ask.list, ask.n)),
    }
}

fn own_rows(ask: Ask) -> Result<Vec<Row>, Refusal> {
    checks::check_ask(ask)?;
    let rows: Vec<Row> = checks::rows_of(ask.list)
        .filter(|row| row.seen_by(ask.asker))
        .collect();
    checks::first_fault(&rows, ask.n)?;
    Ok(rows)
}

// The earliest arrivals, as lengths since A, from a source left at the reading `since`.
fn scan(rows: &[Row], ask: Ask, source: u32, since: u32, out: &mut [u32]) {
    out.fill(UNREACHED);
    out[source as usize] = since - ask.a;
    for row in rows {
        let arrival = row.start + row.travel;
        if row.start < since || arrival > ask.w {
            continue;
        }
        let (start, arrive) = (row.start - ask.a, arrival - ask.a);
        if out[row.from as usize] <= start && arrive < out[row.to as usize] {
            out[row.to as usize] = arrive;
        }
    }
}

fn fill(rows: &[Row], ask: Ask, out: &mut [u32]) {
    for (source, stretch) in (0..).zip(out.chunks_exact_mut(ask.n as usize)) {
        scan(rows, ask, source, ask.a, stretch);
    }
}

fn whole_table(rows: &[Row], ask: Ask) -> Vec<u32> {
    let n = ask.n as usize;
    let mut table = vec![0; n * n];
    fill(rows, ask, &mut table);
    table
}

// The distances to a target, by source.
fn column(table: &[u32], n: u32, target: u32) -> impl Iterator<Item = u32> + '_ {
    table
        .iter()
        .skip(target as usize)
        .step_by(n as usize)
        .copied()
}

// The greatest distance of another stop that is reached, 0 for none, and the lowest such stop.
fn greatest(distances: impl Iterator<Item = u32>, stop: u32) -> (u32, u32) {
    let mut best = (0, 0);
    for (other, distance) in (0..).zip(distances) {
        if other != stop && distance != UNREACHED && distance > best.0 {
            best = (distance, other);
        }
    }
    best
}

fn distances_from(ask: Ask, source: u32, out: &mut [u32]) -> Result<(), Refusal> {
    let rows = own_rows(ask)?;
    check_stop(source, ask.n)?;
    check_room(out, ask.n as usize)?;
    scan(&rows, ask, source, ask.a, &mut out[..ask.n as usize]);
    Ok(())
}

fn distances_to(
    ask: Ask,
    target: u32,
    out: &mut [u32],
    scratch: &mut [u32],
) -> Result<(), Refusal> {
    let rows = own_rows(ask)?;
    check_stop(target, ask.n)?;
    check_room(out, ask.n as usize)?;
    check_room(scratch, SCRATCH)?;
    let table = whole_table(&rows, ask);
    for (place, distance) in out.iter_mut().zip(column(&table, ask.n, target)) {
        *place = distance;
    }
    checks::wipe(scratch);
    Ok(())
}

fn table(ask: Ask, out: &mut [u32]) -> Result<(), Refusal> {
    let rows = own_rows(ask)?;
    let places = ask.n as usize * ask.n as usize;
    check_room(out, places)?;
    fill(&rows, ask, &mut out[..places]);
    Ok(())
}

fn forward_eccentricity(ask: Ask, stop: u32) -> Result<u32, Refusal> {
    let rows = own_rows(ask)?;
    check_stop(stop, ask.n)?;
    let mut out = vec![0; ask.n as usize];
    scan(&rows, ask, stop, ask.a, &mut out);
    Ok(greatest(out.into_iter(), stop).0)
}

fn backward_eccentricity(ask: Ask, stop: u32, scratch: &mut [u32]) -> Result<u32, Refusal> {
    let rows = own_rows(ask)?;
    check_stop(stop, ask.n)?;
    check_room(scratch, SCRATCH)?;
    let table = whole_table(&rows, ask);
    checks::wipe(scratch);
    Ok(greatest(column(&table, ask.n, stop), stop).0)
}

// The visits of the stops that have a bound, where `far` gives the eccentricity of one and its source.
fn visit(bounds: &[Option<u32>], far: impl Fn(u32) -> (u32, u32)) -> Search {
    let mut targets: Vec<(u32, u32)> = (0..)
        .zip(bounds)
        .filter_map(|(stop, bound)| Some(((*bound)?, stop)))
        .collect();
    targets.sort_by_key(|&(bound, stop)| (u32::MAX - bound, stop));
    let mut search = Search::default();
    for (bound, target) in targets {
        if bound <= search.best {
            break;
        }
        search.visits += 1;
        let (value, source) = far(target);
        if value > search.best {
            search = Search {
                best: value,
                source,
                target,
                ..search
            };
        }
    }
    search
}

fn diameter(ask: Ask, scratch: &mut [u32]) -> Result<Search, Refusal> {
    let rows = own_rows(ask)?;
    check_room(scratch, SCRATCH)?;
    let table = whole_table(&rows, ask);
    let mut bounds = vec![None; ask.n as usize];
    for row in &rows {
        let arrival = row.start + row.travel;
        if row.start >= ask.a && arrival <= ask.w {
            let bound = &mut bounds[row.to as usize];
            *bound = (*bound).max(Some(arrival - ask.a));
        }
    }
    checks::wipe(scratch);
    Ok(visit(&bounds, |v| greatest(column(&table, ask.n, v), v)))
}

// Marks the pairs that a pivot joins, and raises the bounds of the stops that it reaches.
fn join(
    rows: &[Row],
    ask: Ask,
    pivot: &[u32],
    table: &[u32],
    joined: &mut [bool],
    bounds: &mut [Option<u32>],
) {
    let n = ask.n as usize;
    let (p, by) = (pivot[0] as usize, pivot[1] - ask.a);
    let mut onward = vec![0; n];
    scan(rows, ask, pivot[0], pivot[1], &mut onward);
    for (bound, &arrive) in bounds.iter_mut().zip(&onward) {
        if arrive != UNREACHED {
            *bound = (*bound).max(Some(arrive));
        }
    }
    for u in (0..n).filter(|u| table[u * n + p] <= by) {
        for v in (0..n).filter(|&v| onward[v] != UNREACHED) {
            joined[u * n + v] = true;
        }
    }
}

fn pivot_diameter(ask: Ask, pivots: &[u32], scratch: &mut [u32]) -> Result<Search, Refusal> {
    let rows = own_rows(ask)?;
    check_pivots(pivots, ask)?;
    check_room(scratch, SCRATCH)?;
    let mut table = whole_table(&rows, ask);
    let mut joined = vec![false; table.len()];
    let mut bounds = vec![None; ask.n as usize];
    for pivot in pivots.chunks_exact(2) {
        join(&rows, ask, pivot, &table, &mut joined, &mut bounds);
    }
    for (distance, joined) in table.iter_mut().zip(joined) {
        if !joined {
            *distance = UNREACHED;
        }
    }
    checks::wipe(scratch);
    Ok(visit(&bounds, |v| greatest(column(&table, ask.n, v), v)))
}
