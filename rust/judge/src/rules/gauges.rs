//! Document 01's rules for gauges, on exact numbers that are read from the floats' bit patterns.

use super::exact::Exact;

/// A card as it is handed over: of kind 0 "a spring, carrying a rate and a pin", of kind 1 "a bridge, carrying a gain
/// and a zero", each number by its bit pattern.
#[derive(Clone, Copy)]
pub struct Card {
    pub kind: u8,
    pub first: u64,
    pub second: u64,
}

/// What is read: the pressure's bit pattern beside the row.
#[derive(Clone, Copy, PartialEq)]
pub struct Reading {
    pub pressure: u64,
    pub row: i16,
}

const A_256TH: Exact = Exact::new(1, -8);
const MOST: Exact = Exact::new(65536, 0);
const LEAST: Exact = Exact::new(-65536, 0);

/// "Rate and gain are powers of two from 1/256 to 256." Of odd digits only 1 makes a power of two.
fn factor(bits: u64) -> Option<Exact> {
    Exact::of_float(bits).filter(|x| x.digits == 1 && A_256TH <= *x && *x <= Exact::new(256, 0))
}

/// "A multiple of 1/256 from" one number to another. Odd digits are a multiple of 1/256 where their power is.
fn multiple(bits: u64, from: Exact, to: Exact) -> Option<Exact> {
    Exact::of_float(bits).filter(|x| x.power >= A_256TH.power && from <= *x && *x <= to)
}

/// The exact pressure; or 21 where "the card breaks a rule above", 22 where "the sample is negative, or the pressure is
/// at or past the pin". A kind that is none breaks the rules too.
fn pressure(card: Card, sample: i16) -> Result<Exact, u8> {
    let number = Exact::new(sample as i128, 0);
    match card.kind {
        0 => {
            let (rate, pin) = (factor(card.first).ok_or(21)?, multiple(card.second, A_256TH, MOST).ok_or(21)?);
            let pressure = number * rate;
            if sample < 0 || pressure >= pin { Err(22) } else { Ok(pressure) }
        }
        1 => {
            let (gain, zero) = (factor(card.first).ok_or(21)?, multiple(card.second, LEAST, MOST).ok_or(21)?);
            Ok(number * gain - zero)
        }
        _ => Err(21),
    }
}

/// "The exact pressure as a float beside the grid row, the pressure with its fraction dropped towards zero"; 23 where
/// "the row would leave the grid".
pub fn reading(card: Card, sample: i16) -> Result<Reading, u8> {
    let pressure = pressure(card, sample)?;
    let row = i16::try_from(pressure.whole_part()).map_err(|_| 23)?;
    Ok(Reading { pressure: pressure.float(), row })
}
