// The outcome of an ask by the library's calls.

#[path = "../../bindings/rust/src/raw.rs"]
mod raw;

use crate::ask::{junk_list, Ask, Call, Outcome, Reply};
use raw::*;

/// Places on either side of a lent list, which no call may write to.
const AROUND: usize = 8;
const AROUND_NUMBER: u32 = 0xa5a5_5a5a;

/// A list with places around it that have to keep their number.
struct Lent {
    numbers: Vec<u32>,
    len: usize,
}

impl Lent {
    fn of(numbers: &[u32]) -> Lent {
        let mut around = vec![AROUND_NUMBER; AROUND];
        around.extend_from_slice(numbers);
        around.extend_from_slice(&[AROUND_NUMBER; AROUND]);
        Lent {
            numbers: around,
            len: numbers.len(),
        }
    }

    fn parts(&mut self) -> (*mut u32, usize) {
        (self.numbers[AROUND..].as_mut_ptr(), self.len)
    }

    fn inside(&self) -> &[u32] {
        &self.numbers[AROUND..AROUND + self.len]
    }

    fn kept_around(&self) -> bool {
        let before = &self.numbers[..AROUND];
        let after = &self.numbers[AROUND + self.len..];
        before
            .iter()
            .chain(after)
            .all(|&number| number == AROUND_NUMBER)
    }
}

/// All lists of one call. The lists that are only read are lent as copies too, to see that they
/// come back unchanged.
struct Lists {
    list: Lent,
    pivots: Lent,
    out: Lent,
    scratch: Lent,
    reply: Lent,
}

impl Lists {
    fn of(ask: &Ask) -> Lists {
        Lists {
            list: Lent::of(&ask.list),
            pivots: Lent::of(&ask.pivots),
            out: Lent::of(&junk_list(ask.out_len, ask.junk)),
            scratch: Lent::of(&junk_list(ask.scratch_len, ask.junk)),
            reply: Lent::of(&junk_list(5, ask.junk)),
        }
    }

    fn outcome(self, ask: &Ask) -> Outcome {
        let lent = [
            &self.list,
            &self.pivots,
            &self.out,
            &self.scratch,
            &self.reply,
        ];
        let kept = lent.iter().all(|list| list.kept_around())
            && self.list.inside() == ask.list
            && self.pivots.inside() == ask.pivots;
        let mut reply: Reply = [0; 5];
        reply.copy_from_slice(self.reply.inside());
        Outcome {
            reply,
            out: self.out.inside().to_vec(),
            scratch: self.scratch.inside().to_vec(),
            kept,
        }
    }
}

pub fn outcome(ask: &Ask) -> Outcome {
    let mut lists = Lists::of(ask);
    call(ask, &mut lists);
    lists.outcome(ask)
}

fn call(ask: &Ask, lists: &mut Lists) {
    let (n, asker, a, w, stop) = (ask.n, ask.asker, ask.a, ask.w, ask.stop);
    let (list, len) = lists.list.parts();
    let (pivots, pivots_len) = lists.pivots.parts();
    let (out, out_len) = lists.out.parts();
    let (scratch, room) = lists.scratch.parts();
    let reply = lists.reply.parts().0.cast();
    // Every pointer is that of a list which lives in `lists`, with its own length.
    unsafe {
        match ask.call {
            Call::DistancesFrom => {
                figures_distances_from(list, len, n, asker, a, w, stop, out, out_len, reply)
            }
            Call::DistancesTo => figures_distances_to(
                list, len, n, asker, a, w, stop, out, out_len, scratch, room, reply,
            ),
            Call::Table => figures_table(list, len, n, asker, a, w, out, out_len, reply),
            Call::ForwardEccentricity => {
                figures_forward_eccentricity(list, len, n, asker, a, w, stop, reply)
            }
            Call::BackwardEccentricity => {
                figures_backward_eccentricity(list, len, n, asker, a, w, stop, scratch, room, reply)
            }
            Call::Diameter => figures_diameter(list, len, n, asker, a, w, scratch, room, reply),
            Call::PivotDiameter => figures_pivot_diameter(
                list, len, n, asker, a, w, pivots, pivots_len, scratch, room, reply,
            ),
            Call::OfficeCheck => figures_office_check(list, len, n, reply),
        }
    }
}
