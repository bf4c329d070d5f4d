//! What is answered to a question; the word that it comes in at the boundary, and what it leaves in what was lent.

use super::lent::Lent;
use crate::rules::chart::Place;
use crate::rules::faces::Faces;
use crate::rules::gauges::Reading;
use crate::rules::heads::Head;
use std::ops::Range;

#[derive(Clone, Debug, PartialEq)]
pub enum Answer {
    /// the refusal's number, its index or place, and the chart that it names, 0 where it names none
    Refused(u8, usize, u8),
    Accepted,
    At(Place),
    /// by the places of its numbers in the array; 0..0 where it is empty
    Run(Range<usize>),
    Head(Head),
    Area(i64),
    Faces(Faces),
    Read(Reading),
    /// the numbers that are written: what a file gives, or what two charts joined are
    Records(Vec<i16>),
}

impl Answer {
    /// "Bits 0 to 31 the value, index or place; bits 32 to 47 the refusal's number, 0 where the question was answered;
    /// bits 48 to 55 the chart named (0, 1, 2); bits 56 to 63 a kind. Every bit that a row below does not name is 0."
    /// Of a run bits 0 to 31 are its start and bits 32 to 63 its length; of faces bits 0 to 15 are the cycles and bits
    /// 16 to 31 the faces.
    pub fn word(&self) -> u64 {
        match self {
            Answer::Refused(number, index, chart) => (*chart as u64) << 48 | (*number as u64) << 32 | *index as u64,
            Answer::Run(run) => (run.len() as u64) << 32 | run.start as u64,
            Answer::At(Place::Inside) | Answer::Head(Head::First) => 1 << 56,
            Answer::At(Place::Edge) | Answer::Head(Head::Second) => 2 << 56,
            Answer::Records(numbers) => numbers.len() as u64 / 5,
            Answer::Faces(list) => (list.faces as u64) << 16 | list.cycles.len() as u64,
            Answer::At(Place::Outside) | Answer::Head(Head::Neither) => 0,
            Answer::Accepted | Answer::Area(_) | Answer::Read(_) => 0,
        }
    }

    /// What was lent holds this afterwards: after a refusal what it held before, but for a pressure and a row, which
    /// are then zero.
    pub fn leaves(&self, lent: Lent) -> Lent {
        match (self, lent) {
            (Answer::Area(area), Lent::Area(_)) => Lent::Area(*area),
            (Answer::Read(reading), Lent::Reading(_)) => Lent::Reading(*reading),
            (Answer::Refused(..), Lent::Reading(_)) => Lent::Reading(Reading { pressure: 0, row: 0 }),
            (Answer::Records(numbers), Lent::Numbers(mut all)) => {
                all[..numbers.len()].copy_from_slice(numbers);
                Lent::Numbers(all)
            }
            (Answer::Faces(list), Lent::Lists([mut labels, mut cycles])) => {
                labels[..list.labels.len()].copy_from_slice(&list.labels);
                cycles[..2 * list.cycles.len()].copy_from_slice(list.cycles.as_flattened());
                Lent::Lists([labels, cycles])
            }
            (_, lent) => lent,
        }
    }
}
