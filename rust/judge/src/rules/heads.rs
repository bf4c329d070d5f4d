//! Document 01's rule for the smaller head of two arrays.

use super::records::{comes_first, record_of};

/// Whose first record is handed back.
#[derive(Clone, Copy, Debug, PartialEq, Eq)]
pub enum Head {
    Neither,
    First,
    Second,
}

/// "Five numbers, from the second only if its head comes strictly earlier or the first has fewer than five numbers
/// left; an empty part when both have."
pub fn smaller_head(a: &[i16], b: &[i16]) -> Head {
    match (a.len() >= 5, b.len() >= 5) {
        (false, false) => Head::Neither,
        (true, false) => Head::First,
        (false, true) => Head::Second,
        (true, true) if comes_first(record_of(b), record_of(a)) => Head::Second,
        (true, true) => Head::First,
    }
}
