//! What is lent with a question, to be written. It is filled with a pattern before, so that whatever is written shows.

use super::question::Question;
use crate::rules::gauges::Reading;

pub const AREA: i64 = 0x5aa5_3cc3_6996_0ff0;
pub const READING: Reading = Reading { pressure: 0xa55a_c33c_9669_f00f, row: 0x5a3c };

/// An array of so many numbers.
pub fn numbers(room: usize) -> Vec<i16> {
    (0..room).map(|at| (40503 * at + 12345) as i16).collect()
}

/// Arrays of so many labels and so many numbers of cycles.
pub fn lists([labels, cycles]: [usize; 2]) -> [Vec<u16>; 2] {
    let filled = |room: usize, from: usize| (0..room).map(|at| (40503 * at + from) as u16).collect();
    [filled(labels, 23456), filled(cycles, 34567)]
}

#[derive(Clone, Debug, PartialEq)]
pub enum Lent {
    Nothing,
    Area(i64),
    Reading(Reading),
    Numbers(Vec<i16>),
    /// labels, and the numbers of cycles
    Lists([Vec<u16>; 2]),
}

impl Lent {
    /// As it is before the question is put.
    pub fn with(question: &Question) -> Self {
        match question {
            Question::Area { .. } => Lent::Area(AREA),
            Question::Gauge { .. } => Lent::Reading(READING),
            Question::Read { room, .. } | Question::Join { room, .. } => Lent::Numbers(numbers(*room)),
            Question::Faces { rooms, .. } => Lent::Lists(lists(*rooms)),
            _ => Lent::Nothing,
        }
    }

    /// As it lies in memory, without gaps.
    pub fn bytes(&self) -> Vec<u8> {
        match self {
            Lent::Nothing => vec![],
            Lent::Area(area) => area.to_le_bytes().to_vec(),
            Lent::Reading(reading) => [&reading.pressure.to_le_bytes()[..], &reading.row.to_le_bytes()].concat(),
            Lent::Numbers(numbers) => numbers.iter().flat_map(|v| v.to_le_bytes()).collect(),
            Lent::Lists(lists) => lists.iter().flatten().flat_map(|v| v.to_le_bytes()).collect(),
        }
    }
}
