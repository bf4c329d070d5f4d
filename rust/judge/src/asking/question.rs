//! What is asked at the boundary.

use crate::rules::gauges::{Card, Reading};
use crate::rules::joins::Op;
use std::fmt::{Debug, Display, Formatter, Result as Shown};

/// A question with its inputs.
#[derive(Clone, Copy)]
pub enum Question<'a> {
    Check { chart: &'a [i16] },
    Point { chart: &'a [i16], x: i16, y: i16 },
    Corner { chart: &'a [i16], x: i16, y: i16 },
    Head { a: &'a [i16], b: &'a [i16] },
    Area { chart: &'a [i16] },
    /// into arrays of so many labels and so many numbers of cycles
    Faces { chart: &'a [i16], rooms: [usize; 2] },
    /// into an array of so many numbers
    Join { op: Op, a: &'a [i16], b: &'a [i16], room: usize },
    Gauge { card: Card, sample: i16 },
    /// for an array of so many numbers
    Read { file: &'a [u8], room: usize },
}

// ---- telling

/// The most numbers that are shown of an array; only arrays that are refused for their length have more.
const SHOWN: usize = 4096;

fn shown<T: Debug>(all: &[T]) -> String {
    match all.get(..SHOWN) {
        Some(first) if all.len() > SHOWN => format!("{first:?} and {} more", all.len() - SHOWN),
        _ => format!("{all:?}"),
    }
}

/// A float by its value and its bit pattern.
fn float(bits: u64) -> String {
    format!("{:?} ({bits:#018x})", f64::from_bits(bits))
}

impl Display for Card {
    fn fmt(&self, f: &mut Formatter) -> Shown {
        let names = ["spring, rate and pin", "bridge, gain and zero"];
        let name = names.get(self.kind as usize).unwrap_or(&"no card");
        write!(f, "kind {} ({name}) {}, {}", self.kind, float(self.first), float(self.second))
    }
}

impl Debug for Reading {
    fn fmt(&self, f: &mut Formatter) -> Shown {
        write!(f, "pressure {}, row {}", float(self.pressure), self.row)
    }
}

impl Display for Question<'_> {
    fn fmt(&self, f: &mut Formatter) -> Shown {
        match *self {
            Question::Check { chart } => write!(f, "check of {}", shown(chart)),
            Question::Point { chart, x, y } => write!(f, "point ({x}, {y}) of {}", shown(chart)),
            Question::Corner { chart, x, y } => write!(f, "corner ({x}, {y}) of {}", shown(chart)),
            Question::Head { a, b } => write!(f, "smaller head of {} and {}", shown(a), shown(b)),
            Question::Area { chart } => write!(f, "twice the area of {}", shown(chart)),
            Question::Faces { chart, rooms: [labels, cycles] } => {
                write!(f, "faces of {} into arrays of {labels} labels and {cycles} numbers", shown(chart))
            }
            Question::Join { op, a, b, room } => {
                write!(f, "{op:?} of {} and {} into an array of {room} numbers", shown(a), shown(b))
            }
            Question::Gauge { card, sample } => write!(f, "sample {sample} by a card of {card}"),
            Question::Read { file, room } => write!(f, "file {file:02x?} for an array of {room} numbers"),
        }
    }
}
