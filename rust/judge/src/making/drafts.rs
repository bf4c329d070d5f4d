//! Drawn arrays, good charts and others.

use super::grid::{Way, LEAST};
use super::harms::{harm_numbers, harm_sides, turn_mark};
use super::regions::{region, sides, Piece};
use super::sides::{array, cut, joined, marked_afresh, ordered, side_of, Side};
use crate::dice::Dice;

/// An array, and the pieces of the region that it shows, where it is made to show one.
pub struct Draft {
    pub kind: &'static str,
    pub numbers: Vec<i16>,
    pub pieces: Option<Vec<Piece>>,
}

/// How many cells, or points of triangles.
fn size(dice: &mut Dice) -> u64 {
    match dice.roll(50) {
        0 => 100,
        1..=4 => 60,
        5..=14 => 30,
        15..=34 => 12,
        _ => 6,
    }
}

/// The sides of a region, some in line joined or cut.
fn outline(dice: &mut Dice, pieces: &[Piece]) -> Vec<Way> {
    let mut ways = sides(pieces);
    if dice.roll(2) == 0 {
        ways = joined(dice, ways);
    }
    let more = dice.roll(18).saturating_sub(11) as usize;
    let upto = ways.len() + more;
    cut(dice, ways, upto)
}

fn good(dice: &mut Dice) -> Draft {
    let most = size(dice);
    let pieces = region(dice, most);
    let sides: Vec<Side> = outline(dice, &pieces).into_iter().map(side_of).collect();
    Draft { kind: "good", numbers: array(&sides), pieces: Some(pieces) }
}

/// About as many records as a chart may have, or about as many numbers as the judge of the nearest below can ask about.
fn large(dice: &mut Dice) -> Draft {
    let (mut pieces, mut ways) = (vec![], vec![]);
    while ways.len() < 100 {
        pieces = region(dice, 120);
        ways = outline(dice, &pieces);
    }
    let upto = 254 + dice.roll(6) as usize;
    let sides: Vec<Side> = cut(dice, ways, upto).into_iter().map(side_of).collect();
    let mut numbers = array(&sides);
    match dice.roll(6) {
        // one record more
        0 => numbers.extend(numbers[numbers.len() - 5..].to_vec()),
        1 => numbers.resize(4090 + dice.roll(7) as usize, 0),
        _ if sides.len() <= 256 => return Draft { kind: "large", numbers, pieces: Some(pieces) },
        _ => {}
    }
    Draft { kind: "large", numbers, pieces: None }
}

fn harmed(dice: &mut Dice) -> Draft {
    let most = size(dice);
    let pieces = region(dice, most);
    let mut sides: Vec<Side> = outline(dice, &pieces).into_iter().map(side_of).collect();
    let harms = dice.roll(3);
    (0..harms).for_each(|_| harm_sides(dice, &mut sides));
    if harms > 0 && dice.roll(3) > 0 {
        sides = marked_afresh(&sides);
    }
    if dice.roll(5) == 0 {
        turn_mark(dice, &mut sides);
    }
    let mut numbers = array(&sides);
    let harms = dice.roll(if harms == 0 { 3 } else { 2 });
    (0..harms).for_each(|_| harm_numbers(dice, &mut numbers));
    if dice.roll(3) == 0 {
        numbers = ordered(&numbers);
    }
    Draft { kind: "harmed", numbers, pieces: None }
}

/// Segments drawn at random on a grid of few points, close together or over the whole grid, many of them at one corner;
/// both halves, in order.
fn thrown(dice: &mut Dice) -> Draft {
    let (n, width) = (1 + dice.roll(8), 2 + dice.roll(5));
    let (least, step) = if dice.roll(3) == 0 { (LEAST, 65535 / (width as i128 - 1)) } else { (0, 1) };
    let coordinate = |dice: &mut Dice| least + step * dice.roll(width) as i128;
    let mut point = || (coordinate(dice), coordinate(dice));
    let corner = point();
    let mut way = |i: u64| (if i % 2 == 0 { corner } else { point() }, point());
    let mut sides: Vec<Side> = (0..n).map(|i| side_of(way(i))).collect();
    sides.sort_by_key(|side| side.segment);
    sides.dedup_by_key(|side| side.segment);
    sides.retain(|side| side.segment.left != side.segment.right);
    if dice.roll(2) == 0 {
        sides = marked_afresh(&sides);
    }
    Draft { kind: "thrown", numbers: array(&sides), pieces: None }
}

fn random(dice: &mut Dice) -> Draft {
    let (n, is_small) = (dice.roll(40), dice.roll(2) == 0);
    let number = |_| if is_small { dice.roll(3) as i16 - 1 } else { dice.number() };
    Draft { kind: "random", numbers: (0..n).map(number).collect(), pieces: None }
}

/// Large ones are rare, since every question about one takes the check of it.
pub fn draft(dice: &mut Dice) -> Draft {
    match dice.roll(1000) {
        0..=3 => large(dice),
        4..=33 => random(dice),
        34..=113 => thrown(dice),
        114..=413 => good(dice),
        _ => harmed(dice),
    }
}
