//! Document 01's rules for the chart file, on wide integers, and a writer of such files. The groups of a number are
//! listed and then judged, and a coordinate is looked up among all that the grid has.

use std::collections::HashMap;
use std::sync::LazyLock;

/// A refusal's number and place.
pub type Refusal = (u8, usize);

/// What a file gives: the numbers for the array, or a refusal.
pub type Taken = Result<Vec<i16>, Refusal>;

// ---- numbers

fn has_high_bit(group: &u8) -> bool {
    *group >= 128
}

/// The groups of the number at a place, "high bit set on all but the last". Where the bytes end before the last, those
/// that are there.
fn groups_at(bytes: &[u8], place: usize) -> &[u8] {
    let rest = &bytes[place..];
    let last = rest.iter().position(|group| !has_high_bit(group));
    last.map_or(rest, |last| &rest[..=last])
}

/// "Groups of seven bits, lowest first."
fn value(groups: &[u8]) -> i128 {
    groups.iter().zip(0..).map(|(&group, i)| (group % 128) as i128 * 128i128.pow(i)).sum()
}

/// "31 bytes end inside a number or before it; 32 a third group with its high bit set, whatever follows, or a last
/// group of zero after another."
fn fault(groups: &[u8]) -> Option<u8> {
    if groups.get(2).is_some_and(has_high_bit) {
        return Some(32);
    }
    match groups {
        [] => Some(31),
        [.., last] if has_high_bit(last) => Some(31),
        [_, .., 0] => Some(32),
        _ => None,
    }
}

/// "Signed n is written as 2n, or -2n-1 below zero."
pub fn written(n: i128) -> i128 {
    if n < 0 { -2 * n - 1 } else { 2 * n }
}

/// Every number of the grid, by what it is written as.
static COORDINATES: LazyLock<HashMap<i128, i16>> =
    LazyLock::new(|| (i16::MIN..=i16::MAX).map(|n| (written(n as i128), n)).collect());

// ---- the file

struct Reader<'a> {
    bytes: &'a [u8],
    /// "The place is the first byte of the number", of the next one
    place: usize,
}

impl Reader<'_> {
    fn number(&mut self) -> Result<i128, Refusal> {
        let groups = groups_at(self.bytes, self.place);
        match fault(groups) {
            Some(number) => Err((number, self.place)),
            None => {
                self.place += groups.len();
                Ok(value(groups))
            }
        }
    }

    /// "33 a coordinate off the grid."
    fn coordinate(&mut self) -> Result<i16, Refusal> {
        let place = self.place;
        let n = self.number()?;
        COORDINATES.get(&n).copied().ok_or((33, place))
    }

    /// "Or a mark above 1."
    fn mark(&mut self) -> Result<i16, Refusal> {
        let place = self.place;
        let n = self.number()?;
        if n > 1 { Err((33, place)) } else { Ok(n as i16) }
    }
}

/// "A file is the record count, then each record: four signed numbers and the mark. Refusals, by first place met."
pub fn read(bytes: &[u8], room: usize) -> Taken {
    let mut file = Reader { bytes, place: 0 };
    let count = file.number()?;
    if count > 512 {
        return Err((35, 0));
    }
    if 5 * count > room as i128 {
        return Err((36, 0));
    }
    let mut numbers = vec![];
    for _ in 0..count {
        for _ in 0..4 {
            numbers.push(file.coordinate()?);
        }
        numbers.push(file.mark()?);
    }
    if file.place < bytes.len() {
        return Err((34, file.place));
    }
    Ok(numbers)
}

// ---- writing

/// A number by its groups, no more than it needs.
pub fn groups_of(n: i128) -> Vec<u8> {
    match n {
        0..128 => vec![n as u8],
        _ => [vec![128 + (n % 128) as u8], groups_of(n / 128)].concat(),
    }
}

/// An array's file, number by number: the count's groups, then those of each number of the array.
pub fn parts(numbers: &[i16]) -> Vec<Vec<u8>> {
    let record = |record: &[i16]| {
        let plain = |at: usize| if at < 4 { written(record[at] as i128) } else { record[at] as i128 };
        [0, 1, 2, 3, 4].map(|at| groups_of(plain(at)))
    };
    let count = groups_of(numbers.len() as i128 / 5);
    [count].into_iter().chain(numbers.chunks_exact(5).flat_map(record)).collect()
}
