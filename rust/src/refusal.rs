//! Why a question is refused: document 01's numbers and what they mean.

use std::fmt::{self, Display, Formatter};

/// The table of refusals: number, name, document 01's words, and the few words that are shown.
macro_rules! refusals {
    ($($number:literal $name:ident: $rule:literal, $meaning:literal;)*) => {
        /// What a refusal is given for, one variant for each of document 01's numbers.
        #[derive(Clone, Copy, PartialEq, Eq, Hash, Debug)]
        #[non_exhaustive]
        pub enum Reason {
            $(#[doc = concat!(stringify!($number), ": ", $rule, ".")] $name,)*
            /// A number that this list does not have.
            Unlisted,
        }

        impl Reason {
            fn of(number: u16) -> Reason {
                match number {
                    $($number => Reason::$name,)*
                    _ => Reason::Unlisted,
                }
            }
        }

        impl Display for Reason {
            fn fmt(&self, f: &mut Formatter) -> fmt::Result {
                f.write_str(match self {
                    $(Reason::$name => $meaning,)*
                    Reason::Unlisted => "no refusal has this number",
                })
            }
        }
    };
}

refusals! {
    1 BadLength: "length is no multiple of five",
        "the length is no whole number of records";
    2 TooManyRecords: "more than 512 records (256 segments)",
        "there are more records than a chart may have";
    3 EqualEnds: "a record's two ends are equal",
        "the record's two ends are equal";
    4 BadMark: "a mark is neither 0 nor 1",
        "the mark is neither 0 nor 1";
    5 NotAfter: "a record does not come strictly after the one before",
        "the record does not come strictly after the one before";
    6 NoOtherHalf: "the other half, ends swapped and same mark, is missing",
        "the other half, ends swapped and same mark, is missing";
    7 Touching: "two segments touch",
        "two segments touch";
    8 OddEnd: "an odd number of segments ends at a point",
        "an odd number of segments ends at a point";
    9 WrongMark: "a mark is not the counted one",
        "the mark is not the counted one";
    10 NoRoomForFaces: "either array is too short",
        "the array for labels or the one for cycles is too short";
    11 ChartsTouch: "a segment of one touches a segment of the other (index: first such record of the first chart)",
        "a segment of one chart touches a segment of the other";
    12 ResultTooLong: "the result has more than 512 records",
        "the result has more records than a chart may have";
    13 NoRoomForResult: "the lent array is shorter than the result",
        "the lent array is shorter than the result";
    21 BadCard: "the card breaks a rule",
        "the card breaks a rule";
    22 BeyondSpring: "spring: the sample is negative, or the pressure is at or past the pin",
        "the sample is negative, or the pressure is at or past the spring's pin";
    23 RowOffGrid: "the row would leave the grid",
        "the row would leave the grid";
    31 CutShort: "bytes end inside a number or before it",
        "the bytes end inside a number or before it";
    32 BadForm: "a third group with its high bit set, whatever follows, or a last group of zero after another",
        "the number is longer than it may be, or than it need be";
    33 OutOfRange: "a coordinate off the grid or a mark above 1",
        "a coordinate is off the grid, or a mark above 1";
    34 LeftOver: "bytes left over",
        "there are bytes left over";
    35 CountTooHigh: "count above 512",
        "the count is above what a chart may have";
    36 ArrayTooShort: "lent array too short for the count",
        "the lent array is too short for the count";
}

/// A question that is refused: document 01's number, the record or the place that it names, and the chart where two
/// were asked about.
///
/// ```
/// use berzulka::{check, union, Reason};
///
/// let refusal = check(&[0; 6]).unwrap_err();
/// assert_eq!((refusal.number(), refusal.index(), refusal.chart()), (1, 0, 0));
/// assert_eq!(refusal.reason(), Reason::BadLength);
/// assert_eq!(refusal.to_string(), "refused 1 at 0: the length is no whole number of records");
///
/// let refusal = union(&[], &[0; 6], &mut []).unwrap_err();
/// assert_eq!((refusal.number(), refusal.index(), refusal.chart()), (1, 0, 2));
/// assert_eq!(refusal.to_string(), "refused 1 at 0 of chart 2: the length is no whole number of records");
/// ```
#[derive(Clone, Copy, PartialEq, Eq, Hash, Debug)]
pub struct Refusal {
    pub(crate) number: u16,
    pub(crate) index: usize,
    pub(crate) chart: u8,
}

impl Refusal {
    /// Document 01's number.
    pub fn number(&self) -> u16 {
        self.number
    }

    /// The index of the record at fault, or the place in the file; 0 where document 01 fixes none.
    pub fn index(&self) -> usize {
        self.index
    }

    /// The chart that it names where two were asked about, 1 the first and 2 the second; 0 where it names none.
    pub fn chart(&self) -> u8 {
        self.chart
    }

    /// What the number is given for.
    pub fn reason(&self) -> Reason {
        Reason::of(self.number)
    }
}

impl Display for Refusal {
    fn fmt(&self, f: &mut Formatter) -> fmt::Result {
        write!(f, "refused {} at {}", self.number, self.index)?;
        if self.chart != 0 {
            write!(f, " of chart {}", self.chart)?;
        }
        write!(f, ": {}", self.reason())
    }
}

impl std::error::Error for Refusal {}

#[cfg(test)]
mod tests {
    use super::{Reason, Refusal};

    #[test]
    fn every_number_is_listed() {
        let is_listed = |number| Refusal { number, index: 0, chart: 0 }.reason() != Reason::Unlisted;
        let listed: Vec<u16> = (0..=u16::MAX).filter(|&number| is_listed(number)).collect();
        assert_eq!(listed, [1, 2, 3, 4, 5, 6, 7, 8, 9, 10, 11, 12, 13, 21, 22, 23, 31, 32, 33, 34, 35, 36]);
    }

    #[test]
    fn a_number_that_is_not_listed_is_a_refusal() {
        let refusal = Refusal { number: 99, index: 3, chart: 0 };
        assert_eq!(refusal.to_string(), "refused 99 at 3: no refusal has this number");
    }
}
