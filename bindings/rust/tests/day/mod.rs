// Day D of document 01: five stops and seven rows, two of them of clients 7 and 9.
use figures::{Ask, Refusal};

#[rustfmt::skip]
pub const DAY_D: [u32; 35] = [
    0, 1, 100, 20, 0,
    1, 2, 120, 30, 0,
    0, 2, 130, 10, 7,
    1, 4, 130, 5, 9,
    2, 3, 145, 15, 0,
    2, 3, 150, 40, 0,
    3, 4, 200, 5, 0,
];

pub fn ask(asker: u32) -> Ask<'static> {
    Ask {
        list: &DAY_D,
        n: 5,
        asker,
        a: 100,
        w: 300,
    }
}

pub fn refusal(number: u32, place: u32) -> Refusal {
    Refusal { number, place }
}
