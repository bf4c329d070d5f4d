//! Drawn arrays to be asked about for their faces and holes: painted subdivisions, outlines within outlines, damaged
//! ones, and any.

use super::drafts::draft;
use super::drawn_pairs::room_for;
use super::nested::nested;
use super::owners::Owners;
use super::painted::Painted;
use super::regions::{board, moved};
use super::subdivisions::{jointed, subdivision};
use crate::dice::Dice;

/// An array, and what its sides belong to, where it is made so that this is known.
pub struct Draft {
    pub kind: &'static str,
    pub numbers: Vec<i16>,
    pub owners: Option<Owners>,
}

impl Draft {
    /// Where there are too many records the chart is refused, and has no sides to speak of.
    fn of(kind: &'static str, numbers: Vec<i16>, owners: impl FnOnce() -> Owners) -> Self {
        let owners = (numbers.len() / 5 <= 512).then(owners);
        Draft { kind, numbers, owners }
    }

    fn painted(kind: &'static str, painted: &Painted) -> Self {
        Draft::of(kind, painted.chart(), || painted.owners())
    }
}

/// How many cells, or points of triangles.
fn size(dice: &mut Dice) -> u64 {
    match dice.roll(50) {
        0 | 1 => 100,
        2..=9 => 60,
        10..=24 => 30,
        _ => 16,
    }
}

/// Cells painted in a pattern with a few exceptions: a chequered board, rings within rings, all but every second one of
/// every second row, stripes.
fn patterned(dice: &mut Dice, most: u64) -> Painted {
    let (w, h, all) = board(dice, most);
    let (kind, odds) = (dice.roll(5), 5 + dice.roll(20));
    let is_painted = |n: usize| {
        let (i, j) = (n / h, n % h);
        let pattern = match kind {
            0 => (i + j) % 2 == 0,
            1 => i.min(j).min(w - 1 - i).min(h - 1 - j) % 2 == 0,
            2 => i % 2 == 0 || j % 2 == 0,
            // holes that meet at their corners
            3 => (i + j) % 2 == 0 || i.min(j) == 0 || i + 1 == w || j + 1 == h,
            _ => i % 2 == 0,
        };
        pattern != (dice.roll(odds) == 0)
    };
    let is_painted = (0..all.len()).map(is_painted).collect();
    let pieces = moved(dice, all);
    Painted { pieces: if dice.roll(4) == 0 { jointed(dice, pieces) } else { pieces }, is_painted }
}

/// Pieces painted by chance: few of them, most of them, or about half.
fn by_chance(dice: &mut Dice, most: u64) -> Painted {
    let pieces = subdivision(dice, most);
    let of_eight = *dice.pick(&[1, 2, 4, 5, 6, 7, 7, 8]);
    let is_painted = pieces.iter().map(|_| dice.roll(8) < of_eight).collect();
    Painted { pieces, is_painted }
}

fn painted(dice: &mut Dice, most: u64) -> Painted {
    if dice.roll(2) == 0 { patterned(dice, most) } else { by_chance(dice, most) }
}

/// About as many records as a chart may have.
fn large(dice: &mut Dice) -> Draft {
    loop {
        let painted = painted(dice, 230);
        if (400..=512).contains(&(painted.chart().len() / 5)) {
            return Draft::painted("large", &painted);
        }
    }
}

fn within(dice: &mut Dice) -> Draft {
    let (numbers, owners) = nested(dice);
    Draft::of("nested", numbers, || owners)
}

/// Large ones are rare, since the rules' own counts take long for them.
pub fn drawn(dice: &mut Dice) -> Draft {
    match dice.roll(1000) {
        0..=2 => large(dice),
        3..=102 => within(dice),
        103..=352 => Draft { kind: "draft", numbers: draft(dice).numbers, owners: None },
        _ => {
            let most = size(dice);
            Draft::painted("painted", &painted(dice, most))
        }
    }
}

/// The lengths of the two arrays for so many labels and so many numbers of cycles: both as for one array, or only one
/// of them, or just enough.
pub fn rooms_for(dice: &mut Dice, [labels, cycles]: [usize; 2]) -> [usize; 2] {
    match dice.roll(4) {
        0 => [room_for(dice, labels), cycles],
        1 => [labels, room_for(dice, cycles)],
        2 => [labels + dice.roll(9) as usize, cycles + dice.roll(9) as usize],
        _ => [room_for(dice, labels), room_for(dice, cycles)],
    }
}
