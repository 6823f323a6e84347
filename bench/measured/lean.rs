// Plain Rust in fewer steps than the library's, for three calls: one loop checks the own rows and makes the legs, and no
// rows are copied.
use crate::calls::{filled, refusal, Ask, Call, Lent, Refusal, Reply, SCRATCH};
use crate::days::MOST_ROWS;
use crate::plain;
use crate::plain::checks::{check_ask, check_room, check_stop, rows_of, wipe};
use crate::plain::forward::{forward_pass, Leg};
use crate::plain::links::Links;

#[inline(never)]
pub fn reply(ask: Ask, call: Call, lent: &mut Lent) -> Reply {
    let (out, scratch) = (&mut lent.out[..], &mut lent.scratch[..]);
    match call {
        Call::DistancesFrom(source) => filled(distances_from(ask, source, out)),
        Call::DistancesTo(target) => filled(distances_to(ask, target, out, scratch)),
        Call::Table => filled(table(ask, out)),
        _ => plain::reply(ask, call, lent),
    }
}

// Numbers 1 to 6, and the legs of the own rows at the front of `legs`.
fn checked_legs(ask: Ask, legs: &mut [Leg; MOST_ROWS]) -> Result<usize, Refusal> {
    check_ask(ask)?;
    let (mut seen, mut count, mut last) = (0, 0, 0);
    for row in rows_of(ask.list).filter(|row| row.seen_by(ask.asker)) {
        if row.start < last || !row.is_sound(ask.n) {
            return refusal(6, seen);
        }
        last = row.start;
        seen += 1;
        let arrival = row.start + row.travel;
        if row.start >= ask.a && arrival <= ask.w {
            legs[count] = Leg {
                from: row.from,
                to: row.to,
                start: row.start - ask.a,
                arrive: arrival - ask.a,
            };
            count += 1;
        }
    }
    Ok(count)
}

fn distances_from(ask: Ask, source: u32, out: &mut [u32]) -> Result<(), Refusal> {
    let mut legs = [Leg::default(); MOST_ROWS];
    let m = checked_legs(ask, &mut legs)?;
    check_stop(source, ask.n)?;
    let n = ask.n as usize;
    check_room(out, n)?;
    forward_pass(&legs[..m], source as usize, 0, &mut out[..n]);
    Ok(())
}

fn table(ask: Ask, out: &mut [u32]) -> Result<(), Refusal> {
    let mut legs = [Leg::default(); MOST_ROWS];
    let m = checked_legs(ask, &mut legs)?;
    let n = ask.n as usize;
    check_room(out, n * n)?;
    for (source, stretch) in out[..n * n].chunks_exact_mut(n).enumerate() {
        forward_pass(&legs[..m], source, 0, stretch);
    }
    Ok(())
}

fn distances_to(
    ask: Ask,
    target: u32,
    out: &mut [u32],
    scratch: &mut [u32],
) -> Result<(), Refusal> {
    let mut legs = [Leg::default(); MOST_ROWS];
    let m = checked_legs(ask, &mut legs)?;
    check_stop(target, ask.n)?;
    let n = ask.n as usize;
    check_room(out, n)?;
    check_room(scratch, SCRATCH)?;
    let mut links = Links::new();
    links.link(&legs[..m]);
    links.to_target(&legs[..m], target, &mut out[..n]);
    wipe(scratch);
    Ok(())
}
