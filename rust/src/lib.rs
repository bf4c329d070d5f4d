//! Questions about charts, answered by the proved library that the archive `librig.a` holds, which
//! `tests/boundary/librig.sh` writes.
//!
//! A chart is a slice of numbers, [`WIDTH`] of them to a record: x and y of the dominating end, x and y of the other
//! end, the side mark. Document 01 fixes every rule. Nothing has to be checked before a question is asked: any numbers,
//! any floats and any bytes end in an answer or in a numbered [`Refusal`], and a refused question leaves what was lent
//! as it was.
//!
//! ```
//! use berzulka::{gauge, point, read, Card, Place, Refusal, LIMIT, WIDTH};
//!
//! /// Whether a pump must alarm at this time, by a chart file and a gauge's sample.
//! fn must_alarm(file: &[u8], time: i16, sample: i16) -> Result<bool, Refusal> {
//!     let mut numbers = [0; LIMIT * WIDTH];
//!     let records = read(file, &mut numbers)?;
//!     let chart = &numbers[..records * WIDTH];
//!     let reading = gauge(Card::Bridge { gain: 0.5, zero: 0.0 }, sample)?;
//!     Ok(point(chart, time, reading.row)? != Place::Outside)
//! }
//!
//! // document 01's square, with corners (0,0) and (4,4)
//! let square = [
//!     8,
//!     0, 0, 8, 0, 1,  0, 0, 0, 8, 0,  0, 8, 0, 0, 0,  0, 8, 8, 8, 0,
//!     8, 0, 0, 0, 1,  8, 0, 8, 8, 1,  8, 8, 0, 8, 0,  8, 8, 8, 0, 1,
//! ];
//! assert_eq!(must_alarm(&square, 3, 5), Ok(true));
//! assert_eq!(must_alarm(&square, 5, 5), Ok(false));
//! let refusal = must_alarm(&square[..40], 3, 5).unwrap_err();
//! assert_eq!((refusal.number(), refusal.index()), (31, 40));
//! ```

#![deny(missing_docs)]

mod faces;
pub mod raw;
mod refusal;

pub use faces::{faces, FaceCount};
pub use refusal::{Reason, Refusal};

use raw::Answer;

/// How many numbers a record has.
pub const WIDTH: usize = 5;

/// How many records a chart may have, so that [`read`] and joining need no more than `LIMIT * WIDTH` numbers, and
/// [`faces`] no more than `LIMIT` in either array.
pub const LIMIT: usize = 512;

// In each `unsafe` below and in `faces` a slice gives a pointer that is valid for its length, and what is lent for
// writing is a `&mut` that nothing else overlaps: that is all the archive asks. What comes back is looked at as an
// unknown number would be, so that not even a wrong answer could make a part of an array that is not there.

// ---- questions about a chart

/// Is this array a chart?
///
/// ```
/// let mut square = [
///     0, 0, 4, 0, 1,  0, 0, 0, 4, 0,  0, 4, 0, 0, 0,  0, 4, 4, 4, 0,
///     4, 0, 0, 0, 1,  4, 0, 4, 4, 1,  4, 4, 0, 4, 0,  4, 4, 4, 0, 1,
/// ];
/// assert!(berzulka::check(&square).is_ok());
/// square[39] = 0; // its last mark
/// let refusal = berzulka::check(&square).unwrap_err();
/// assert_eq!((refusal.number(), refusal.index()), (6, 5));
/// ```
pub fn check(chart: &[i16]) -> Result<(), Refusal> {
    let answer = Answer(unsafe { raw::bz_check(chart.as_ptr(), chart.len()) });
    answer.answered().map(|_| ())
}

/// Where a point lies to a chart.
#[derive(Clone, Copy, PartialEq, Eq, Hash, Debug)]
pub enum Place {
    /// An even number of segments lie below it.
    Outside,
    /// An odd number of segments lie below it.
    Inside,
    /// It is on a segment, the ends included.
    Edge,
}

/// Where does the point lie?
///
/// ```
/// use berzulka::{point, Place};
///
/// // the largest triangle that the grid has
/// let triangle = [
///     -32768, -32768, 32767, -32768, 1,  -32768, -32768, -32768, 32767, 0,
///     -32768, 32767, -32768, -32768, 0,  -32768, 32767, 32767, -32768, 0,
///     32767, -32768, -32768, 32767, 0,   32767, -32768, -32768, -32768, 1,
/// ];
/// assert_eq!(point(&triangle, -1, -1), Ok(Place::Inside));
/// assert_eq!(point(&triangle, 0, -1), Ok(Place::Edge));
/// assert_eq!(point(&triangle, 0, 0), Ok(Place::Outside));
/// assert_eq!(point(&triangle[1..], 0, 0).unwrap_err().number(), 1);
/// ```
pub fn point(chart: &[i16], x: i16, y: i16) -> Result<Place, Refusal> {
    let answer = Answer(unsafe { raw::bz_point(chart.as_ptr(), chart.len(), x, y) });
    answer.answered().map(|answer| match answer.kind() {
        0 => Place::Outside,
        1 => Place::Inside,
        2 => Place::Edge,
        kind => unreachable!("bz_point has no kind {kind}"),
    })
}

/// Which records have the point as their dominating end? That very part of the chart; an empty part where there is none
/// and where the chart is refused, and [`check`] says which it is.
///
/// ```
/// let square = [
///     0, 0, 4, 0, 1,  0, 0, 0, 4, 0,  0, 4, 0, 0, 0,  0, 4, 4, 4, 0,
///     4, 0, 0, 0, 1,  4, 0, 4, 4, 1,  4, 4, 0, 4, 0,  4, 4, 4, 0, 1,
/// ];
/// assert_eq!(berzulka::corner(&square, 4, 4), &square[30..40]);
/// assert!(berzulka::corner(&square, 2, 0).is_empty());
/// assert!(berzulka::corner(&square[..35], 4, 4).is_empty());
/// ```
pub fn corner(chart: &[i16], x: i16, y: i16) -> &[i16] {
    let answer = Answer(unsafe { raw::bz_corner(chart.as_ptr(), chart.len(), x, y) });
    &chart[answer.run()]
}

/// The smaller head of two arrays: the first record of whichever array has the one that comes earlier.
#[derive(Clone, Copy, PartialEq, Eq, Hash, Debug)]
pub enum Head<'a> {
    /// Neither array has a whole record left.
    Neither,
    /// The first array's.
    First(&'a [i16]),
    /// The second array's.
    Second(&'a [i16]),
}

impl<'a> Head<'a> {
    /// The record, whichever array it is a part of; an empty part where there is none.
    pub fn record(self) -> &'a [i16] {
        match self {
            Head::Neither => &[],
            Head::First(record) | Head::Second(record) => record,
        }
    }
}

/// Which of two arrays has the smaller head? The first where they are level. No chart is judged.
///
/// ```
/// use berzulka::{head, Head};
///
/// let (a, b) = ([0, 0, 4, 0, 1, 0, 0, 0, 4, 0], [-3, 1, 2, 2, 0]);
/// assert_eq!(head(&a, &b), Head::Second(&b));
/// assert_eq!(head(&a, &b[1..]), Head::First(&a[..5]));
/// assert_eq!(head(&a[..4], &b[..4]).record(), &[]);
/// ```
pub fn head<'a>(a: &'a [i16], b: &'a [i16]) -> Head<'a> {
    let answer = Answer(unsafe { raw::bz_head(a.as_ptr(), a.len(), b.as_ptr(), b.len()) });
    match answer.kind() {
        0 => Head::Neither,
        1 => Head::First(&a[..WIDTH]),
        2 => Head::Second(&b[..WIDTH]),
        kind => unreachable!("bz_head has no kind {kind}"),
    }
}

/// How large is it? Twice the area.
///
/// ```
/// let triangle = [
///     -32768, -32768, 32767, -32768, 1,  -32768, -32768, -32768, 32767, 0,
///     -32768, 32767, -32768, -32768, 0,  -32768, 32767, 32767, -32768, 0,
///     32767, -32768, -32768, 32767, 0,   32767, -32768, -32768, -32768, 1,
/// ];
/// assert_eq!(berzulka::area2(&triangle), Ok(4_294_836_225));
/// assert_eq!(berzulka::area2(&[]), Ok(0));
/// assert_eq!(berzulka::area2(&triangle[..5]).unwrap_err().number(), 6);
/// ```
pub fn area2(chart: &[i16]) -> Result<i64, Refusal> {
    let mut area = 0;
    let answer = Answer(unsafe { raw::bz_area2(chart.as_ptr(), chart.len(), &mut area) });
    answer.answered().map(|_| area)
}

// ---- joining two charts

/// One of the three functions of the archive.
type Joining = unsafe extern "C" fn(*const i16, usize, *const i16, usize, *mut i16, usize) -> u64;

/// How many records it writes into `out`.
fn joined(by: Joining, a: &[i16], b: &[i16], out: &mut [i16]) -> Result<usize, Refusal> {
    let answer = unsafe { by(a.as_ptr(), a.len(), b.as_ptr(), b.len(), out.as_mut_ptr(), out.len()) };
    Answer(answer).answered().map(Answer::value)
}

/// What lies in either chart? How many records were written into `out`, [`WIDTH`] numbers each; what lies beyond them
/// stays, and all of it where the question is refused. The result is a chart again, and its segments are those of the
/// two: what is in line is not merged. A refusal 1 to 9 is of the first chart or else of the second, and names it.
///
/// ```
/// use berzulka::{union, LIMIT, WIDTH};
///
/// // document 01's square and its neighbour
/// let square = [
///     0, 0, 4, 0, 1,  0, 0, 0, 4, 0,  0, 4, 0, 0, 0,  0, 4, 4, 4, 0,
///     4, 0, 0, 0, 1,  4, 0, 4, 4, 1,  4, 4, 0, 4, 0,  4, 4, 4, 0, 1,
/// ];
/// let neighbour = [
///     4, 0, 8, 0, 1,  4, 0, 4, 4, 0,  4, 4, 4, 0, 0,  4, 4, 8, 4, 0,
///     8, 0, 4, 0, 1,  8, 0, 8, 4, 1,  8, 4, 4, 4, 0,  8, 4, 8, 0, 1,
/// ];
/// let mut out = [0; LIMIT * WIDTH];
/// assert_eq!(union(&square, &neighbour, &mut out), Ok(12)); // the side between them is gone
/// assert!(berzulka::check(&out[..12 * WIDTH]).is_ok());
/// assert_eq!(union(&square, &neighbour, &mut out[..59]).unwrap_err().number(), 13);
/// let refusal = union(&square, &neighbour[..35], &mut out).unwrap_err();
/// assert_eq!((refusal.number(), refusal.index(), refusal.chart()), (6, 5, 2));
/// ```
pub fn union(a: &[i16], b: &[i16], out: &mut [i16]) -> Result<usize, Refusal> {
    joined(raw::bz_union, a, b, out)
}

/// What lies in both charts? As [`union`] answers.
///
/// ```
/// // a square, and a triangle in it that stands on its lower side
/// let square = [
///     0, 0, 4, 0, 1,  0, 0, 0, 4, 0,  0, 4, 0, 0, 0,  0, 4, 4, 4, 0,
///     4, 0, 0, 0, 1,  4, 0, 4, 4, 1,  4, 4, 0, 4, 0,  4, 4, 4, 0, 1,
/// ];
/// let triangle = [
///     0, 0, 4, 0, 1,  0, 0, 2, 2, 0,  2, 2, 0, 0, 0,
///     2, 2, 4, 0, 0,  4, 0, 2, 2, 0,  4, 0, 0, 0, 1,
/// ];
/// let mut out = [7; 31];
/// assert_eq!(berzulka::intersection(&square, &triangle, &mut out), Ok(6));
/// assert_eq!(out[..30], triangle);
/// assert_eq!(out[30], 7);
/// assert_eq!(berzulka::intersection(&square, &[], &mut []), Ok(0));
/// ```
pub fn intersection(a: &[i16], b: &[i16], out: &mut [i16]) -> Result<usize, Refusal> {
    joined(raw::bz_intersection, a, b, out)
}

/// What lies in the first chart and not in the second? As [`union`] answers.
///
/// ```
/// let triangle = [
///     0, 0, 4, 0, 1,  0, 0, 2, 2, 0,  2, 2, 0, 0, 0,
///     2, 2, 4, 0, 0,  4, 0, 2, 2, 0,  4, 0, 0, 0, 1,
/// ];
/// let mut out = [7; 30];
/// assert_eq!(berzulka::difference(&triangle, &triangle, &mut out), Ok(0));
/// assert_eq!(out, [7; 30]);
/// assert_eq!(berzulka::difference(&triangle, &[], &mut out), Ok(6));
/// assert_eq!(out, triangle);
/// // another, with a corner on its left side
/// let touching = [
///     1, 1, 2, 4, 1,  1, 1, 1, 4, 0,  1, 4, 1, 1, 0,
///     1, 4, 2, 4, 0,  2, 4, 1, 4, 0,  2, 4, 1, 1, 1,
/// ];
/// let refusal = berzulka::difference(&triangle, &touching, &mut out).unwrap_err();
/// assert_eq!((refusal.number(), refusal.index(), refusal.chart()), (11, 1, 0));
/// ```
pub fn difference(a: &[i16], b: &[i16], out: &mut [i16]) -> Result<usize, Refusal> {
    joined(raw::bz_difference, a, b, out)
}

// ---- gauges

/// A gauge card.
#[derive(Clone, Copy, PartialEq, Debug)]
pub enum Card {
    /// A spring, whose pressure is the sample times the rate and stays below the pin.
    Spring {
        /// A power of two from 1/256 to 256.
        rate: f64,
        /// A multiple of 1/256 from 1/256 to 65,536.
        pin: f64,
    },
    /// A bridge, whose pressure is the sample times the gain, minus the zero.
    Bridge {
        /// A power of two from 1/256 to 256.
        gain: f64,
        /// A multiple of 1/256 from -65,536 to 65,536.
        zero: f64,
    },
}

/// What a sample reads.
#[derive(Clone, Copy, PartialEq, Debug)]
pub struct Reading {
    /// The exact pressure.
    pub pressure: f64,
    /// The grid row: the pressure with its fraction dropped towards zero.
    pub row: i16,
}

/// What does the sample read?
///
/// ```
/// use berzulka::{gauge, Card, Reading};
///
/// let bridge = Card::Bridge { gain: 0.5, zero: 0.0 };
/// assert_eq!(gauge(bridge, -1), Ok(Reading { pressure: -0.5, row: 0 }));
/// let spring = Card::Spring { rate: 1.0, pin: 1000.0 };
/// assert_eq!(gauge(spring, 999), Ok(Reading { pressure: 999.0, row: 999 }));
/// assert_eq!(gauge(spring, 1000).unwrap_err().number(), 22);
/// assert_eq!(gauge(Card::Spring { rate: f64::NAN, pin: 1000.0 }, 999).unwrap_err().number(), 21);
/// ```
pub fn gauge(card: Card, sample: i16) -> Result<Reading, Refusal> {
    let (kind, first, second) = match card {
        Card::Spring { rate, pin } => (0, rate, pin),
        Card::Bridge { gain, zero } => (1, gain, zero),
    };
    let mut reading = Reading { pressure: 0.0, row: 0 };
    let Reading { pressure, row } = &mut reading;
    let answer = Answer(unsafe { raw::bz_gauge(kind, first, second, sample, pressure, row) });
    answer.answered().map(|_| reading)
}

// ---- chart files

/// What records does the file hold? How many were read into `out`, [`WIDTH`] numbers each; what lies beyond them stays,
/// and all of it where the file is refused. Whether the records are a chart is for [`check`] to say.
///
/// ```
/// use berzulka::read;
///
/// let mut out = [7; 6];
/// assert_eq!(read(&[1, 0, 1, 8, 0, 1], &mut out), Ok(1));
/// assert_eq!(out, [0, -1, 4, 0, 1, 7]);
/// let refusal = read(&[2, 0, 1, 8, 0, 1], &mut out).unwrap_err();
/// assert_eq!((refusal.number(), refusal.index()), (36, 0));
/// assert_eq!(out, [0, -1, 4, 0, 1, 7]);
/// ```
pub fn read(bytes: &[u8], out: &mut [i16]) -> Result<usize, Refusal> {
    let answer = Answer(unsafe { raw::bz_read(bytes.as_ptr(), bytes.len(), out.as_mut_ptr(), out.len()) });
    answer.answered().map(Answer::value)
}
