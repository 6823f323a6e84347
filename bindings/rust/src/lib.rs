//! The journey figures of the enquiry desk, over the proved library that `tools/library` makes ready to link.
//!
//! A day list is a slice of numbers, five a row: from, to, start, travel, owner. Stops are 0 to n - 1, times are whole
//! seconds. Owner 0 is public; an asker sees the rows whose owner is 0 or the asker. No answer, refusal or lent list of
//! an [`Ask`] depends on any other row, but for the refusals 1 and 2, which are about the list as a whole. The
//! [`office_check`] has no asker and reads every row: what it tells is for the data office only. A distance is the
//! earliest arrival, less the interval's first reading.
//!
//! Every call takes numbers of any value, and answers or refuses; none panics or allocates. A call needs less than
//! [`STACK`] bytes of stack.
//!
//! ```
//! use figures::{Answer, Ask, SCRATCH};
//!
//! let list = [0, 1, 100, 20, 0, 1, 2, 120, 30, 0];
//! let ask = Ask { list: &list, n: 3, asker: 0, a: 100, w: 300 };
//! match ask.diameter(&mut [0; SCRATCH]) {
//!     Answer::Value { value, from, to, .. } => assert_eq!((value, from, to), (50, 0, 2)),
//!     Answer::Nothing { .. } => panic!("no stop is reached"),
//!     Answer::Refused(refusal) => panic!("{refusal}"),
//! }
//! ```

mod answers;
mod raw;

pub use answers::{Answer, Eccentricity, Filled, Office, Refusal};

/// Numbers of a row.
pub const ROW: usize = 5;
/// The most rows of a list.
pub const MOST_ROWS: usize = 2048;
/// The most stops.
pub const MOST_STOPS: u32 = 256;
/// The most pivots.
pub const MOST_PIVOTS: usize = 16;
/// The latest reading: 72 hours, in seconds.
pub const HORIZON: u32 = 259_200;
/// Numbers of scratch that a call wants.
pub const SCRATCH: usize = 16_384;
/// A distance in a list where there is no journey.
pub const UNREACHED: u32 = u32::MAX;
/// Bytes of stack, enough for any call.
pub const STACK: usize = 262_144;

// Calls `raw::$call` for an ask, with the arguments between its `w` and its reply, and gives the reply.
macro_rules! reply_of {
    ($call:ident, $ask:expr $(, $argument:expr)*) => {{
        let Ask { list, n, asker, a, w } = *$ask;
        let mut reply = [0; 5];
        // SAFETY: each pointer and length are of one live slice, and what is written to is lent to this call alone.
        unsafe { raw::$call(list.as_ptr(), list.len(), n, asker, a, w, $($argument,)* &mut reply) };
        reply
    }};
}

/// What most calls have in common: who asks, over what list, for which interval.
///
/// Where a call is lent `scratch`, an answer sets its first [`SCRATCH`] places to 0. The rest of every lent list is kept, and
/// a refusal changes none.
#[derive(Clone, Copy, Debug)]
pub struct Ask<'a> {
    /// The day list, five numbers a row.
    pub list: &'a [u32],
    /// The number of stops, 1 to [`MOST_STOPS`].
    pub n: u32,
    /// Who asks, 0 to 255; 0 sees the public rows alone.
    pub asker: u32,
    /// A journey starts at this reading or later.
    pub a: u32,
    /// A journey ends by this reading, [`HORIZON`] at most.
    pub w: u32,
}

impl Ask<'_> {
    /// Place v of `out` becomes the distance from `source` to stop v, [`UNREACHED`] where there is no journey, for the first
    /// n places.
    pub fn distances_from(&self, source: u32, out: &mut [u32]) -> Filled {
        let (out, out_len) = parts(out);
        Filled::of(reply_of!(
            figures_distances_from,
            self,
            source,
            out,
            out_len
        ))
    }

    /// Place u of `out` becomes the distance from stop u to `target`, [`UNREACHED`] where there is no journey, for the first
    /// n places.
    pub fn distances_to(&self, target: u32, out: &mut [u32], scratch: &mut [u32]) -> Filled {
        let (out, out_len) = parts(out);
        let (scratch, scratch_len) = parts(scratch);
        Filled::of(reply_of!(
            figures_distances_to,
            self,
            target,
            out,
            out_len,
            scratch,
            scratch_len
        ))
    }

    /// Place u × n + v of `out` becomes the distance from stop u to stop v, [`UNREACHED`] where there is no journey, for the
    /// first n × n places.
    pub fn table(&self, out: &mut [u32]) -> Filled {
        let (out, out_len) = parts(out);
        Filled::of(reply_of!(figures_table, self, out, out_len))
    }

    /// The greatest distance from `stop` to a different stop that is reached.
    pub fn forward_eccentricity(&self, stop: u32) -> Eccentricity {
        Eccentricity::of(reply_of!(figures_forward_eccentricity, self, stop))
    }

    /// The greatest distance to `stop` from a different stop that reaches it.
    pub fn backward_eccentricity(&self, stop: u32, scratch: &mut [u32]) -> Eccentricity {
        let (scratch, scratch_len) = parts(scratch);
        Eccentricity::of(reply_of!(
            figures_backward_eccentricity,
            self,
            stop,
            scratch,
            scratch_len
        ))
    }

    /// The greatest distance over reached pairs of different stops, with its pair and the visits.
    pub fn diameter(&self, scratch: &mut [u32]) -> Answer {
        let (scratch, scratch_len) = parts(scratch);
        Answer::of(reply_of!(figures_diameter, self, scratch, scratch_len))
    }

    /// The greatest distance over the pairs that at least one pivot joins. A pivot is two numbers, a stop and a reading; with
    /// no pivot the answer is nothing with 0 visits.
    pub fn pivot_diameter(&self, pivots: &[u32], scratch: &mut [u32]) -> Answer {
        let (pivots, pivots_len) = (pivots.as_ptr(), pivots.len());
        let (scratch, scratch_len) = parts(scratch);
        Answer::of(reply_of!(
            figures_pivot_diameter,
            self,
            pivots,
            pivots_len,
            scratch,
            scratch_len
        ))
    }
}

fn parts(lent: &mut [u32]) -> (*mut u32, usize) {
    (lent.as_mut_ptr(), lent.len())
}

/// What is wrong with the list, all rows read, whoever owns them: for the data office only.
pub fn office_check(list: &[u32], n: u32) -> Office {
    let mut reply = [0; 5];
    // SAFETY: the pointer and the length are of one live slice, and the reply is this call's own.
    unsafe { raw::figures_office_check(list.as_ptr(), list.len(), n, &mut reply) };
    Office::of(reply)
}
