//! Exact numbers: whole digits times a power of two, read from a float's bit pattern and written as one. Nothing here
//! computes with floats.

use std::cmp::Ordering;
use std::ops::{Mul, Sub};

/// Digits times a power of two. The digits are odd, or the number is 0 with power 0, so each number is written in one
/// way.
#[derive(Clone, Copy, PartialEq)]
pub struct Exact {
    pub digits: i128,
    pub power: i32,
}

impl Exact {
    pub const fn new(digits: i128, power: i32) -> Self {
        if digits == 0 {
            return Exact { digits, power: 0 };
        }
        let zeros = digits.trailing_zeros();
        Exact { digits: digits >> zeros, power: power + zeros as i32 }
    }

    /// What a float's bit pattern stands for; no number where it is a NaN's or an infinity's.
    pub fn of_float(bits: u64) -> Option<Self> {
        let (field, fraction) = (bits >> 52 & 0x7ff, bits & 0xf_ffff_ffff_ffff);
        let (digits, power) = match field {
            0x7ff => return None,
            0 => (fraction, -1074),
            _ => (fraction | 1 << 52, field as i32 - 1075),
        };
        let sign = if bits >> 63 == 1 { -1 } else { 1 };
        Some(Exact::new(sign * digits as i128, power))
    }

    /// The bit pattern of the float that is this very number; the positive zero where it is 0.
    pub fn float(self) -> u64 {
        if self.digits == 0 {
            return 0;
        }
        let digits = self.digits.unsigned_abs();
        let length = 128 - digits.leading_zeros();
        let exponent = self.power + length as i32 - 1;
        assert!(length <= 53 && (-1022..=1023).contains(&exponent), "no float is {} * 2^{}", self.digits, self.power);
        let fraction = (digits << (53 - length)) as u64 & 0xf_ffff_ffff_ffff;
        let sign = (self.digits < 0) as u64;
        sign << 63 | ((exponent + 1023) as u64) << 52 | fraction
    }

    /// The digits that it has at a power no higher than its own. Where they would be moved by more than 64 places the
    /// farthest number stands for them: beside a float's 53 digits it is on the right side.
    fn digits_at(self, power: i32) -> i128 {
        let places = self.power - power;
        if places > 64 {
            return self.digits.signum() * i128::MAX;
        }
        self.digits << places
    }

    /// The number with its fraction dropped towards zero.
    pub fn whole_part(self) -> i128 {
        match self.power {
            0.. => self.digits_at(0),
            // division of whole numbers cuts towards zero
            places => self.digits / (1 << -places),
        }
    }
}

impl PartialOrd for Exact {
    fn partial_cmp(&self, other: &Self) -> Option<Ordering> {
        let power = self.power.min(other.power);
        self.digits_at(power).partial_cmp(&other.digits_at(power))
    }
}

impl Mul for Exact {
    type Output = Exact;

    fn mul(self, other: Exact) -> Exact {
        Exact::new(self.digits * other.digits, self.power + other.power)
    }
}

impl Sub for Exact {
    type Output = Exact;

    fn sub(self, other: Exact) -> Exact {
        assert!(self.power.abs_diff(other.power) <= 64, "too far apart to subtract");
        let power = self.power.min(other.power);
        Exact::new(self.digits_at(power) - other.digits_at(power), power)
    }
}
