// Rows, the checks of the table, and the asker's rows copied out.
use crate::calls::{refusal, Ask, Refusal, HORIZON, SCRATCH};
use crate::days::{MOST_ROWS, MOST_STOPS};

pub const ROW_WIDTH: usize = 5;
const LAST_CLIENT: u32 = 255;

#[derive(Clone, Copy, Default)]
pub struct Row {
    pub from: u32,
    pub to: u32,
    pub start: u32,
    pub travel: u32,
    pub owner: u32,
}

impl Row {
    fn of(numbers: &[u32]) -> Row {
        Row {
            from: numbers[0],
            to: numbers[1],
            start: numbers[2],
            travel: numbers[3],
            owner: numbers[4],
        }
    }

    pub fn seen_by(&self, asker: u32) -> bool {
        self.owner == 0 || self.owner == asker
    }

    pub fn is_sound(&self, n: u32) -> bool {
        self.from < n
            && self.to < n
            && self.from != self.to
            && self.travel >= 1
            && self.start <= HORIZON
            && self.travel <= HORIZON - self.start
    }
}

pub fn rows_of(list: &[u32]) -> impl Iterator<Item = Row> + '_ {
    list.chunks_exact(ROW_WIDTH).map(Row::of)
}

// Numbers 1 to 3.
fn check_list(list: &[u32], n: u32) -> Result<(), Refusal> {
    if list.len() % ROW_WIDTH != 0 {
        return refusal(1, 0);
    }
    if list.len() / ROW_WIDTH > MOST_ROWS {
        return refusal(2, 0);
    }
    if n == 0 || n > MOST_STOPS {
        return refusal(3, 0);
    }
    Ok(())
}

// Numbers 1 to 5.
pub fn check_ask(ask: Ask) -> Result<(), Refusal> {
    check_list(ask.list, ask.n)?;
    if ask.asker > LAST_CLIENT {
        return refusal(4, 0);
    }
    if ask.a > ask.w || ask.w > HORIZON {
        return refusal(5, 0);
    }
    Ok(())
}

// Number 6.
pub fn first_fault(rows: &[Row], n: u32) -> Result<(), Refusal> {
    let mut last = 0;
    for (i, row) in rows.iter().enumerate() {
        if row.start < last || !row.is_sound(n) {
            return refusal(6, i);
        }
        last = row.start;
    }
    Ok(())
}

// The asker's rows go to the front of `rows`.
fn own_rows(list: &[u32], asker: u32, rows: &mut [Row; MOST_ROWS]) -> usize {
    let mut count = 0;
    for row in rows_of(list).filter(|row| row.seen_by(asker)) {
        rows[count] = row;
        count += 1;
    }
    count
}

// Numbers 1 to 6, and how many rows the asker has.
pub fn prepare(ask: Ask, rows: &mut [Row; MOST_ROWS]) -> Result<usize, Refusal> {
    check_ask(ask)?;
    let count = own_rows(ask.list, ask.asker, rows);
    first_fault(&rows[..count], ask.n)?;
    Ok(count)
}

// Number 7.
pub fn check_stop(stop: u32, n: u32) -> Result<(), Refusal> {
    if stop >= n {
        return refusal(7, 0);
    }
    Ok(())
}

// Numbers 8 and 9.
pub fn check_pivots(pivots: &[u32], ask: Ask) -> Result<(), Refusal> {
    if pivots.len() % 2 != 0 || pivots.len() / 2 > 16 {
        return refusal(8, 0);
    }
    for (i, pivot) in pivots.chunks_exact(2).enumerate() {
        if pivot[0] >= ask.n || pivot[1] < ask.a || pivot[1] > ask.w {
            return refusal(9, i);
        }
    }
    Ok(())
}

// Number 10.
pub fn check_room(room: &[u32], places: usize) -> Result<(), Refusal> {
    if room.len() < places {
        return refusal(10, 0);
    }
    Ok(())
}

pub fn wipe(scratch: &mut [u32]) {
    scratch[..SCRATCH].fill(0);
}

pub fn office_check(list: &[u32], n: u32) -> Result<u32, Refusal> {
    check_list(list, n)?;
    let mut last = 0;
    for (i, row) in rows_of(list).enumerate() {
        if row.start < last || !row.is_sound(n) {
            return refusal(6, i);
        }
        if row.owner > LAST_CLIENT {
            return refusal(11, i);
        }
        last = row.start;
    }
    Ok((list.len() / ROW_WIDTH) as u32)
}
