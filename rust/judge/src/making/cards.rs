//! Gauge cards to ask about: sound ones of every rate and gain, ones that break a rule, document 01's own, and drawn
//! ones. Floats are used here to choose cards and samples, never to judge them.

use crate::dice::Dice;
use crate::rules::gauges::{Card, Reading};

const PINS: [f64; 6] = [1.0 / 256.0, 1.0, 1000.0, 32767.99609375, 32768.0, 65536.0];
const ZEROS: [f64; 9] = [0.0, -0.0, 1.0, -1.0, 1.0 / 256.0, 0.5, -1000.5, 65536.0, -65536.0];

/// No rate, gain, pin or zero is one of these.
const NEVER: [f64; 10] = [
    f64::NAN,
    -f64::NAN,
    f64::INFINITY,
    f64::NEG_INFINITY,
    f64::MIN,
    f64::MIN_POSITIVE,
    5e-324,
    -5e-324,
    1.0 / 512.0,
    65536.0 + 1.0 / 256.0,
];

/// A power of two, by its exponent.
pub fn power(exponent: i32) -> f64 {
    f64::from_bits(((1023 + exponent) as u64) << 52)
}

/// The floats next to one.
pub fn beside(x: f64) -> [f64; 2] {
    [x.to_bits() - 1, x.to_bits() + 1].map(f64::from_bits)
}

fn spring(rate: f64, pin: f64) -> Card {
    Card { kind: 0, first: rate.to_bits(), second: pin.to_bits() }
}

fn bridge(gain: f64, zero: f64) -> Card {
    Card { kind: 1, first: gain.to_bits(), second: zero.to_bits() }
}

/// Every rate with three of the pins and every gain with three of the zeros, by turns.
pub fn sound() -> Vec<Card> {
    let turns = || (0..17).flat_map(|i| [0, 1, 2].map(|k| (power(i as i32 - 8), i, k)));
    let springs = turns().map(|(rate, i, k)| spring(rate, PINS[(i + 2 * k) % 6]));
    let bridges = turns().map(|(gain, i, k)| bridge(gain, ZEROS[(i + 3 * k) % 9]));
    springs.chain(bridges).collect()
}

/// Each rule broken by a single number.
pub fn broken() -> Vec<Card> {
    let never = [&NEVER[..], &beside(f64::INFINITY), &beside(1.0), &beside(256.0), &beside(1.0 / 256.0)].concat();
    let no_factor = [&never[..], &[0.0, -0.0, -1.0, 3.0, 512.0, 1.5]].concat();
    let no_pin = [&never[..], &beside(65536.0), &[0.0, -0.0, -1.0, -1.0 / 256.0]].concat();
    let no_zero = [&never[..], &beside(-65536.0), &[-65536.0 - 1.0 / 256.0, -1.0 / 512.0]].concat();
    let rates = no_factor.iter().map(|&rate| spring(rate, 1000.0));
    let pins = no_pin.iter().map(|&pin| spring(1.0, pin));
    let gains = no_factor.iter().map(|&gain| bridge(gain, 0.0));
    let zeros = no_zero.iter().map(|&zero| bridge(1.0, zero));
    rates.chain(pins).chain(gains).chain(zeros).collect()
}

/// Document 01's "Bench examples" on gauges, and the examples by which its unclear points are read.
pub fn examples() -> Vec<(Card, i16, Result<Reading, u8>)> {
    let read = |row: i16, pressure: f64| Ok(Reading { pressure: pressure.to_bits(), row });
    vec![
        (bridge(2.0, 0.0), 16383, read(32766, 32766.0)),
        (bridge(2.0, 0.0), 16384, Err(23)),
        (bridge(1.0, 1.0), -32768, Err(23)),
        (bridge(0.5, 0.0), -1, read(0, -0.5)),
        (spring(1.0, 1000.0), 999, read(999, 999.0)),
        (spring(1.0, 1000.0), 1000, Err(22)),
        // a negative zero is 0 as a zero, breaks the rules elsewhere, and is no pressure
        (bridge(1.0, -0.0), 0, read(0, 0.0)),
        (bridge(-0.0, 0.0), 0, Err(21)),
        (spring(-0.0, 1.0), 0, Err(21)),
        (spring(1.0, -0.0), 0, Err(21)),
    ]
}

// ---- drawn ones

impl Dice {
    /// A multiple of 1/256 from 1/256 to 65,536.
    fn size(&mut self) -> f64 {
        let parts = match self.roll(4) {
            0 => 1 + self.roll(1000),
            1 => 256 * (1 + self.roll(65536)),
            2 => (1 << 24) - self.roll(1000),
            _ => 1 + self.roll(1 << 24),
        };
        parts as f64 / 256.0
    }

    /// The bits of a sound number, or of one near it, or any.
    fn harmed(&mut self, sound: f64) -> u64 {
        let bits = sound.to_bits();
        match self.roll(20) {
            0 | 1 => bits ^ 1 << self.roll(64),
            2 => bits.wrapping_add(1),
            3 => bits.wrapping_sub(1),
            4 => self.bits(),
            5 => self.pick(&NEVER).to_bits(),
            _ => bits,
        }
    }

    pub fn card(&mut self) -> Card {
        let factor = power(self.roll(17) as i32 - 8);
        let (first, size) = (self.harmed(factor), self.size());
        match self.roll(24) {
            0 => Card { kind: 2 + self.roll(254) as u8, first, second: self.harmed(size) },
            1 => Card { kind: self.roll(2) as u8, first: self.bits(), second: self.bits() },
            2..=8 => Card { kind: 0, first, second: self.harmed(size) },
            9..=16 => Card { kind: 1, first, second: self.harmed(size) },
            _ => Card { kind: 1, first, second: self.harmed(-size) },
        }
    }

    /// Samples at the grid's ends, about 0, where the pin or the grid's ends may be met, and any one.
    pub fn samples(&mut self, card: Card) -> Vec<i16> {
        let [factor, second] = [card.first, card.second].map(f64::from_bits);
        let met = if card.kind == 0 { [second, 32768.0] } else { [second - 32768.0, second + 32768.0] };
        let about = |x: f64| {
            let middle = (x / factor).clamp(-32766.0, 32766.0) as i16;
            middle - 2..=middle + 1
        };
        let ends = [-32768, -32767, -1, 0, 1, 32766, 32767, self.number()];
        ends.into_iter().chain(about(met[0])).chain(about(met[1])).collect()
    }
}
