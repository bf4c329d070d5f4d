//! Drawn arrays to be joined, two by two: cut from one subdivision, laid over each other, damaged, and others.

use super::drafts::{self, draft};
use super::grid::{onto_grid, Way};
use super::harms::harm_sides;
use super::points::point_for;
use super::regions::{region, sides, Piece};
use super::sides::{array, cut, joined, marked_afresh, side_of, Side};
use super::subdivisions::{coloured, subdivision, Made};
use crate::dice::Dice;
use crate::rules::records::Point;

/// Two arrays, and the pieces of the regions that they show, where they are made to show some.
pub struct Draft {
    pub kind: &'static str,
    pub a: Vec<i16>,
    pub b: Vec<i16>,
    pub made: Option<Made>,
}

impl Draft {
    fn of(kind: &'static str, made: Made) -> Self {
        let (a, b) = made.charts();
        Draft { kind, a, b, made: Some(made) }
    }

    fn unknown(kind: &'static str, a: Vec<i16>, b: Vec<i16>) -> Self {
        Draft { kind, a, b, made: None }
    }
}

/// How many cells, or points of triangles.
fn size(dice: &mut Dice) -> u64 {
    match dice.roll(50) {
        0 => 60,
        1..=4 => 30,
        5..=24 => 12,
        _ => 5,
    }
}

/// Two regions of one subdivision.
fn two_regions(dice: &mut Dice) -> Made {
    let most = size(dice);
    let pieces = subdivision(dice, most);
    coloured(dice, &pieces)
}

fn sides_of(ways: Vec<Way>) -> Vec<Side> {
    ways.into_iter().map(side_of).collect()
}

/// Two regions with sides in line joined or cut, in each chart by itself: where the other has such a side they touch.
fn reshaped(dice: &mut Dice) -> Draft {
    let made = Made { is_whole: false, ..two_regions(dice) };
    let mut chart = |pieces: &[Piece]| {
        let mut ways = sides(pieces);
        if dice.roll(2) == 0 {
            ways = joined(dice, ways);
        }
        let upto = ways.len() + dice.roll(3) as usize;
        array(&sides_of(cut(dice, ways, upto)))
    };
    Draft { kind: "reshaped", a: chart(&made.first), b: chart(&made.second), made: Some(made) }
}

/// A region and another one, or the same moved by a little, or the same with a harm that may leave a chart.
fn laid_over(dice: &mut Dice) -> Draft {
    let most = size(dice);
    let ways = sides(&region(dice, most));
    let second = match dice.roll(3) {
        0 => sides_of(sides(&region(dice, 6))),
        1 => {
            let (dx, dy) = (dice.roll(5) as i128 - 2, dice.roll(5) as i128 - 2);
            let step = |p: Point| onto_grid((p.0 + dx, p.1 + dy));
            sides_of(ways.iter().map(|&(from, to)| (step(from), step(to))).collect())
        }
        _ => {
            let mut harmed = sides_of(ways.clone());
            harm_sides(dice, &mut harmed);
            marked_afresh(&harmed)
        }
    };
    Draft::unknown("laid over", array(&sides_of(ways)), array(&second))
}

/// Arrays that are mostly damaged, on either side or on both.
fn damaged(dice: &mut Dice) -> Draft {
    let (a, b) = two_regions(dice).charts();
    let (first, second) = (draft(dice).numbers, draft(dice).numbers);
    match dice.roll(3) {
        0 => Draft::unknown("first damaged", first, b),
        1 => Draft::unknown("second damaged", a, second),
        _ => Draft::unknown("both damaged", first, second),
    }
}

/// Two charts with so many records that what is made of them may pass the limit.
fn large(dice: &mut Dice) -> Draft {
    let least = 500 + 100 * dice.roll(4) as usize;
    loop {
        let pieces = subdivision(dice, 200);
        let draft = Draft::of("large", coloured(dice, &pieces));
        let (first, second) = (draft.a.len() / 5, draft.b.len() / 5);
        if first <= 512 && second <= 512 && first + second >= least {
            return draft;
        }
    }
}

/// Large ones are rare, since the rules' own counts take long for them.
pub fn drawn(dice: &mut Dice) -> Draft {
    match dice.roll(1000) {
        0..=3 => large(dice),
        4..=99 => laid_over(dice),
        100..=299 => damaged(dice),
        300..=449 => reshaped(dice),
        _ => Draft::of("cut from one", two_regions(dice)),
    }
}

// ---- what is asked of them

/// Some points near the two; fewer where there are more segments to count.
pub fn points_for(dice: &mut Dice, draft: &Draft) -> Vec<Point> {
    let numbers = [&draft.a[..], &draft.b].concat();
    let most = if numbers.len() <= 300 { 12 } else { 4 };
    let pieces = draft.made.as_ref().map(|made| [&made.first[..], &made.second].concat());
    let both = drafts::Draft { kind: draft.kind, numbers, pieces };
    (0..dice.roll(most)).map(|_| point_for(dice, &both)).collect()
}

/// The length of an array for a result of so many numbers: shorter, just enough, longer.
pub fn room_for(dice: &mut Dice, length: usize) -> usize {
    match dice.roll(7) {
        0 => length.saturating_sub(1),
        1 => length.saturating_sub(5),
        2 => dice.roll(length as u64 + 1) as usize,
        3 => length,
        4 => length + 1,
        5 => 2560,
        _ => length + dice.roll(40) as usize,
    }
}
