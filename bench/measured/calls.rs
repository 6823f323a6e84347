// The calls, what is lent to them, and their answers as five numbers.
pub const UNREACHED: u32 = u32::MAX;
pub const HORIZON: u32 = 259_200;
pub const SCRATCH: usize = 16_384;

// What every asking call is given.
#[derive(Clone, Copy)]
pub struct Ask<'a> {
    pub list: &'a [u32],
    pub n: u32,
    pub asker: u32,
    pub a: u32,
    pub w: u32,
}

// One call with all that it is given but the lists it writes to.
#[derive(Clone, Copy)]
pub enum Call<'a> {
    DistancesFrom(u32),
    DistancesTo(u32),
    Table,
    ForwardEccentricity(u32),
    BackwardEccentricity(u32),
    Diameter,
    PivotDiameter(&'a [u32]),
    OfficeCheck,
}

// The lists that a call may write to.
pub struct Lent {
    pub out: Vec<u32>,
    pub scratch: Vec<u32>,
}

// A number of the table, with its place.
#[derive(Clone, Copy)]
pub struct Refusal {
    pub number: u32,
    pub place: u32,
}

// The state of a search: the best value, at first 0, its pair, and the visits.
#[derive(Clone, Copy, Default)]
pub struct Search {
    pub best: u32,
    pub source: u32,
    pub target: u32,
    pub visits: u32,
}

pub type Reply = [u32; 5];

pub fn refusal<T>(number: u32, place: usize) -> Result<T, Refusal> {
    Err(Refusal {
        number,
        place: place as u32,
    })
}

pub fn filled(answer: Result<(), Refusal>) -> Reply {
    answer.map_or_else(refused, |()| [1, 0, 0, 0, 0])
}

pub fn office(answer: Result<u32, Refusal>) -> Reply {
    answer.map_or_else(refused, |rows| [1, rows, 0, 0, 0])
}

pub fn eccentricity(answer: Result<u32, Refusal>) -> Reply {
    match answer {
        Err(refusal) => refused(refusal),
        Ok(0) => [2, 0, 0, 0, 0],
        Ok(value) => [1, value, 0, 0, 0],
    }
}

pub fn widest(answer: Result<Search, Refusal>) -> Reply {
    match answer {
        Err(refusal) => refused(refusal),
        Ok(Search {
            best: 0, visits, ..
        }) => [2, 0, 0, 0, visits],
        Ok(s) => [1, s.best, s.source, s.target, s.visits],
    }
}

fn refused(refusal: Refusal) -> Reply {
    [0, refusal.number, refusal.place, 0, 0]
}
