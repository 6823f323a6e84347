// An ask is one call with all that it is given; its outcome, the reply and the lent lists.

use crate::random::STEP;

pub const ROW: usize = 5;
pub const MOST_ROWS: usize = 2_048;
pub const MOST_STOPS: u32 = 256;
pub const MOST_ASKER: u32 = 255;
pub const MOST_PIVOTS: usize = 16;
pub const HORIZON: u32 = 259_200;
pub const SCRATCH: usize = 16_384;
pub const UNREACHED: u32 = 4_294_967_295;

pub const REFUSED: u32 = 0;
pub const ANSWER: u32 = 1;
pub const NONE: u32 = 2;

pub type Reply = [u32; 5];

#[derive(Clone, Copy, PartialEq, Debug)]
pub enum Call {
    DistancesFrom,
    DistancesTo,
    Table,
    ForwardEccentricity,
    BackwardEccentricity,
    Diameter,
    PivotDiameter,
    OfficeCheck,
}

use Call::*;

pub const CALLS: [Call; 8] = [
    DistancesFrom,
    DistancesTo,
    Table,
    ForwardEccentricity,
    BackwardEccentricity,
    Diameter,
    PivotDiameter,
    OfficeCheck,
];

impl Call {
    pub fn name(self) -> &'static str {
        match self {
            DistancesFrom => "figures_distances_from",
            DistancesTo => "figures_distances_to",
            Table => "figures_table",
            ForwardEccentricity => "figures_forward_eccentricity",
            BackwardEccentricity => "figures_backward_eccentricity",
            Diameter => "figures_diameter",
            PivotDiameter => "figures_pivot_diameter",
            OfficeCheck => "figures_office_check",
        }
    }

    /// A named source, target or stop.
    pub fn takes_stop(self) -> bool {
        matches!(
            self,
            DistancesFrom | DistancesTo | ForwardEccentricity | BackwardEccentricity
        )
    }

    pub fn takes_out(self) -> bool {
        matches!(self, DistancesFrom | DistancesTo | Table)
    }

    pub fn takes_scratch(self) -> bool {
        matches!(
            self,
            DistancesTo | BackwardEccentricity | Diameter | PivotDiameter
        )
    }

    /// How many places of `out` an answer fills.
    pub fn wanted(self, n: u32) -> u64 {
        match self {
            Table => u64::from(n) * u64::from(n),
            DistancesFrom | DistancesTo => u64::from(n),
            _ => 0,
        }
    }
}

#[derive(Clone, Copy, PartialEq, Debug)]
pub struct Row {
    pub from: u32,
    pub to: u32,
    pub start: u32,
    pub travel: u32,
    pub owner: u32,
}

impl Row {
    pub fn of(numbers: &[u32]) -> Row {
        Row {
            from: numbers[0],
            to: numbers[1],
            start: numbers[2],
            travel: numbers[3],
            owner: numbers[4],
        }
    }

    pub fn numbers(self) -> [u32; ROW] {
        [self.from, self.to, self.start, self.travel, self.owner]
    }

    /// The exact sum, which may not fit 32 bits in a row that is not sound.
    pub fn arrival(self) -> u64 {
        u64::from(self.start) + u64::from(self.travel)
    }

    pub fn seen_by(self, asker: u32) -> bool {
        self.owner == 0 || self.owner == asker
    }
}

/// What a call does not take is 0 or empty.
#[derive(Clone, PartialEq, Debug)]
pub struct Ask {
    pub call: Call,
    pub list: Vec<u32>,
    pub n: u32,
    pub asker: u32,
    pub a: u32,
    pub w: u32,
    pub stop: u32,
    pub pivots: Vec<u32>,
    pub out_len: usize,
    pub scratch_len: usize,
    pub junk: u64,
}

impl Ask {
    pub fn rows(&self) -> Vec<Row> {
        self.list.chunks_exact(ROW).map(Row::of).collect()
    }

    pub fn own_rows(&self) -> Vec<Row> {
        let mut rows = self.rows();
        rows.retain(|row| row.seen_by(self.asker));
        rows
    }
}

/// What a lent list of `len` numbers holds before the call. A junk number below 2^32 stands in
/// every place; a greater one gives each place another number.
pub fn junk_list(len: usize, junk: u64) -> Vec<u32> {
    match u32::try_from(junk) {
        Ok(number) => vec![number; len],
        Err(_) => (0..len as u64)
            .map(|place| (junk.wrapping_add(place).wrapping_mul(STEP) >> 32) as u32)
            .collect(),
    }
}

/// `kept` says that no number outside the lent lists, and none of the lists that are only read,
/// has changed.
#[derive(Clone, PartialEq, Debug)]
pub struct Outcome {
    pub reply: Reply,
    pub out: Vec<u32>,
    pub scratch: Vec<u32>,
    pub kept: bool,
}

impl Outcome {
    /// The lent lists after this reply: `filled` in the first places of `out`, zeros in scratch,
    /// and nothing changed by a refusal.
    pub fn of(ask: &Ask, reply: Reply, filled: &[u32]) -> Outcome {
        let mut out = junk_list(ask.out_len, ask.junk);
        let mut scratch = junk_list(ask.scratch_len, ask.junk);
        if reply[0] != REFUSED {
            let places = out.iter_mut().zip(filled);
            places.for_each(|(place, number)| *place = *number);
            let cleared = if ask.call.takes_scratch() { SCRATCH } else { 0 };
            scratch
                .iter_mut()
                .take(cleared)
                .for_each(|place| *place = 0);
        }
        Outcome {
            reply,
            out,
            scratch,
            kept: true,
        }
    }
}
