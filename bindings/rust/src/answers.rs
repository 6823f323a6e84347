// What comes of a call: its answer, none, or a refusal.
use crate::raw::Reply;
use std::fmt;

// The first number of a reply.
const REFUSED: u32 = 0;
const ANSWER: u32 = 1;

/// Why a call was refused. The call wrote to no lent list.
#[derive(Clone, Copy, Debug, PartialEq, Eq, Hash)]
pub struct Refusal {
    /// The number in the desk's table, 1 to 12.
    pub number: u32,
    /// For 6 the first wrong row's number among the asker's rows, for 9 the first wrong pivot's, for 6 and 11 of the office
    /// check the row's number in the whole list; otherwise 0.
    pub place: u32,
}

/// What comes of a call that fills a list.
#[derive(Clone, Copy, Debug, PartialEq, Eq, Hash)]
#[must_use = "a refused call has filled nothing"]
pub enum Filled {
    Done,
    Refused(Refusal),
}

/// What comes of asking an eccentricity.
#[derive(Clone, Copy, Debug, PartialEq, Eq, Hash)]
#[must_use]
pub enum Eccentricity {
    /// The greatest distance, in seconds.
    Value(u32),
    /// No different stop is reached, or none reaches the stop.
    Nothing,
    Refused(Refusal),
}

/// What comes of asking a diameter or a pivot-diameter.
#[derive(Clone, Copy, Debug, PartialEq, Eq, Hash)]
#[must_use]
pub enum Answer {
    /// The greatest distance in seconds, its pair of stops, and how many targets were visited.
    Value {
        value: u32,
        from: u32,
        to: u32,
        visits: u32,
    },
    /// No pair that counts is reached.
    Nothing {
        visits: u32,
    },
    Refused(Refusal),
}

/// What comes of the office check.
#[derive(Clone, Copy, Debug, PartialEq, Eq, Hash)]
#[must_use]
pub enum Office {
    /// Nothing is wrong, and the list has this many rows.
    Rows(u32),
    Refused(Refusal),
}

impl Refusal {
    /// The desk's table: when the number is given.
    pub fn reason(&self) -> &'static str {
        match self.number {
            1 => "the list's length is not a multiple of 5",
            2 => "more than 2,048 rows",
            3 => "n is 0 or above 256",
            4 => "asker above 255",
            5 => "a > w, or w above the horizon, 259,200",
            6 => "a row is not sound, or starts before the one preceding it",
            7 => "the named stop is not below n",
            8 => "the pivot list has odd length, or more than 16 pivots",
            9 => "a pivot's stop is not below n, or its reading lies outside a to w",
            10 => "out shorter than n (table: n × n), or scratch shorter than 16,384",
            11 => "an owner above 255",
            12 => "a joined pair without a route",
            _ => "not in the table",
        }
    }
}

/// The number, the table's sentence, and the place where the number has one.
impl fmt::Display for Refusal {
    fn fmt(&self, f: &mut fmt::Formatter<'_>) -> fmt::Result {
        write!(f, "refused {}: {}", self.number, self.reason())?;
        match self.number {
            6 | 11 => write!(f, " (row {})", self.place),
            9 => write!(f, " (pivot {})", self.place),
            _ => Ok(()),
        }
    }
}

impl std::error::Error for Refusal {}

fn refusal(reply: Reply) -> Refusal {
    Refusal {
        number: reply[1],
        place: reply[2],
    }
}

impl Filled {
    pub(crate) fn of(reply: Reply) -> Filled {
        match reply[0] {
            REFUSED => Filled::Refused(refusal(reply)),
            _ => Filled::Done,
        }
    }
}

impl Eccentricity {
    pub(crate) fn of(reply: Reply) -> Eccentricity {
        match reply[0] {
            REFUSED => Eccentricity::Refused(refusal(reply)),
            ANSWER => Eccentricity::Value(reply[1]),
            _ => Eccentricity::Nothing,
        }
    }
}

impl Answer {
    pub(crate) fn of(reply: Reply) -> Answer {
        match reply {
            [REFUSED, ..] => Answer::Refused(refusal(reply)),
            [ANSWER, value, from, to, visits] => Answer::Value {
                value,
                from,
                to,
                visits,
            },
            [_, _, _, _, visits] => Answer::Nothing { visits },
        }
    }
}

impl Office {
    pub(crate) fn of(reply: Reply) -> Office {
        match reply[0] {
            REFUSED => Office::Refused(refusal(reply)),
            _ => Office::Rows(reply[1]),
        }
    }
}
