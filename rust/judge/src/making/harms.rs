//! What goes wrong with charts: with their segments, in a way that keeps both halves and the order, and with single
//! numbers.

use super::grid::{along, beside, is_on_grid, onto_grid, steps};
use super::regions::{region, sides};
use super::sides::{side_of, Side};
use crate::dice::Dice;
use crate::rules::records::Point;
use crate::rules::segments::Segment;

// ---- segments

pub fn any_point(dice: &mut Dice) -> Point {
    (dice.number() as i128, dice.number() as i128)
}

fn corner(dice: &mut Dice, sides: &[Side]) -> Point {
    if sides.is_empty() {
        return any_point(dice);
    }
    let s = dice.pick(sides).segment;
    if dice.roll(2) == 0 { s.left } else { s.right }
}

/// A point on a side, or as near to one as a point of the grid that is not on it can be.
fn at_side(dice: &mut Dice, sides: &[Side]) -> Point {
    if sides.is_empty() {
        return any_point(dice);
    }
    let s = dice.pick(sides).segment;
    let way = (s.left, s.right);
    let on = along(way, dice.roll(steps(way).max(1) as u64) as i128);
    match (dice.roll(3), beside(way)) {
        (0, Some((left, _))) => left,
        (1, Some((_, right))) => right,
        _ => on,
    }
}

fn nearby(dice: &mut Dice, p: Point) -> Point {
    let reach = *dice.pick(&[1, 2, 9, 2000]);
    let mut step = || dice.roll(2 * reach + 1) as i128 - reach as i128;
    let at = (p.0 + step(), p.1 + step());
    if is_on_grid(at) { at } else { p }
}

/// A corner moved, with all that ends there.
fn move_corner(dice: &mut Dice, sides: &mut [Side]) {
    let from = corner(dice, sides);
    let to = match dice.roll(6) {
        0 => corner(dice, sides),
        1 | 2 => at_side(dice, sides),
        _ => nearby(dice, from),
    };
    let change = |p: Point| if p == from { to } else { p };
    for side in sides {
        side.segment = Segment::between(change(side.segment.left), change(side.segment.right));
    }
}

/// A segment more: between corners, to a point at a side, in line with a side from one of its ends, or anywhere.
fn add(dice: &mut Dice, sides: &mut Vec<Side>) {
    let (from, to) = match dice.roll(6) {
        0 => (corner(dice, sides), at_side(dice, sides)),
        1 => (corner(dice, sides), any_point(dice)),
        2 => (any_point(dice), any_point(dice)),
        3 => {
            let p = corner(dice, sides);
            (p, nearby(dice, p))
        }
        4 if !sides.is_empty() => {
            let s = dice.pick(sides).segment;
            let way = if dice.roll(2) == 0 { (s.left, s.right) } else { (s.right, s.left) };
            (way.0, onto_grid(along(way, 1 + dice.roll(2 * steps(way).max(1) as u64) as i128)))
        }
        _ => (corner(dice, sides), corner(dice, sides)),
    };
    sides.push(Side { segment: Segment::between(from, to), mark: dice.roll(2) as i16 });
}

/// Another chart laid over it. What both have goes, or stays twice.
fn lay_over(dice: &mut Dice, all: &mut Vec<Side>) {
    let keeps_both = dice.roll(4) == 0;
    for side in sides(&region(dice, 9)).into_iter().map(side_of) {
        match all.iter().position(|other| other.segment == side.segment) {
            Some(at) if !keeps_both => drop(all.swap_remove(at)),
            _ => all.push(side),
        }
    }
}

/// The mark of one side turned, on both halves.
pub fn turn_mark(dice: &mut Dice, sides: &mut [Side]) {
    if !sides.is_empty() {
        let at = dice.roll(sides.len() as u64) as usize;
        sides[at].mark = 1 - sides[at].mark;
    }
}

pub fn harm_sides(dice: &mut Dice, sides: &mut Vec<Side>) {
    match dice.roll(8) {
        0 => turn_mark(dice, sides),
        // all marks but perhaps one
        1 => {
            sides.iter_mut().for_each(|side| side.mark = 1 - side.mark);
            turn_mark(dice, sides);
        }
        2 if !sides.is_empty() => drop(sides.swap_remove(dice.roll(sides.len() as u64) as usize)),
        3 => add(dice, sides),
        4 => lay_over(dice, sides),
        _ => move_corner(dice, sides),
    }
}

// ---- numbers

pub fn harm_numbers(dice: &mut Dice, numbers: &mut Vec<i16>) {
    let records = numbers.len() as u64 / 5;
    if records == 0 {
        let more = dice.roll(12);
        numbers.extend((0..more).map(|_| dice.number()));
        return;
    }
    let (at, to) = (5 * dice.roll(records) as usize, 5 * dice.roll(records) as usize);
    let number = at + dice.roll(4) as usize;
    match dice.roll(13) {
        0 => numbers[number] = dice.number(),
        1 => numbers[number] = numbers[number].wrapping_add(1),
        2 | 3 => numbers[at + 4] = 1 - numbers[at + 4].clamp(0, 1),
        4 => numbers[at + 4] = *dice.pick(&[2, -1, 3, -32768, 32767]),
        5 => drop(numbers.drain(at..at + 5)),
        6 => {
            let again: Vec<i16> = numbers[at..at + 5].to_vec();
            numbers.splice(to..to, again);
        }
        7 => (0..5).for_each(|i| numbers.swap(at + i, to + i)),
        8 if at > 0 => (0..5).for_each(|i| numbers.swap(at + i, at - 5 + i)),
        9 => numbers.truncate(numbers.len() - 1 - dice.roll(4) as usize),
        10 => numbers.copy_within(at..at + 2, at + 2),
        11 => (0..2).for_each(|i| numbers.swap(at + i, at + 2 + i)),
        _ => drop(numbers.remove(number)),
    }
}
