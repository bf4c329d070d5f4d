//! Floats of every sort by their bit patterns, and the cards that have them.

use super::cards::{beside, power};
use crate::rules::gauges::Card;

const SIGN: u64 = 1 << 63;
const EXPONENT: u64 = 0x7ff << 52;
const FRACTION: u64 = (1 << 52) - 1;
/// a NaN's is quiet where this bit is set, else it signals
const QUIET: u64 = 1 << 51;

/// A fraction of each single bit, and of all of them.
fn fractions() -> impl Iterator<Item = u64> {
    (0..52).map(|bit| 1 << bit).chain([FRACTION, FRACTION ^ QUIET, FRACTION ^ 1])
}

/// NaNs, quiet and signalling, with each bit of the payload; the infinity.
fn no_numbers() -> impl Iterator<Item = u64> {
    fractions().flat_map(|fraction| [EXPONENT | fraction, EXPONENT | QUIET | fraction]).chain([EXPONENT])
}

/// Subnormals, zero, the least normal and the greatest.
fn at_the_ends() -> impl Iterator<Item = u64> {
    fractions().chain([0, 1 << 52, EXPONENT - 1])
}

/// The bounds of a card's numbers, powers of two and multiples of 1/256, and the floats next to them.
fn bounds() -> impl Iterator<Item = u64> {
    let powers = (-10..=18).map(power);
    let multiples = [1.0, 3.0, 255.0, 257.0, 16_777_215.0, 16_777_217.0].map(|n| n / 256.0);
    let all = powers.chain(multiples).flat_map(|x| [x, beside(x)[0], beside(x)[1]]);
    all.map(f64::to_bits)
}

/// Each of these floats, with both signs, in each place of a spring and of a bridge whose other number is sound.
pub fn cards() -> impl Iterator<Item = Card> {
    let floats = no_numbers().chain(at_the_ends()).chain(bounds()).flat_map(|bits| [bits, bits | SIGN]);
    let (one, size) = (1f64.to_bits(), 1000f64.to_bits());
    floats.flat_map(move |bits| {
        let with = |kind: u8| [Card { kind, first: bits, second: size }, Card { kind, first: one, second: bits }];
        [with(0), with(1)].concat()
    })
}

/// Cards of every other kind, of sound numbers and of others.
pub fn no_cards() -> impl Iterator<Item = Card> {
    let numbers = [[1.0, 1000.0], [2.0, 0.0], [0.5, -65536.0], [0.0, 0.0], [f64::NAN, f64::INFINITY]];
    let numbers = numbers.map(|pair| pair.map(f64::to_bits));
    (2..=255).flat_map(move |kind| numbers.map(|[first, second]| Card { kind, first, second }))
}
