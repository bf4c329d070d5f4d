//! Questions put to the raw functions. The whole word that they answer is looked at, unnamed bits too.

use super::answer::Answer;
use super::framed::Framed;
use super::lent::{lists, numbers, Lent, AREA, READING};
use super::question::Question;
use crate::rules::gauges::Card;
use crate::rules::joins::Op;
use berzulka::raw::*;

pub struct Outcome {
    word: u64,
    lent: Lent,
    /// what was handed over, and what stands beside it and beside what was lent, is as it was
    is_kept: bool,
}

impl Outcome {
    pub fn disagreement(&self, wanted: &Answer, after: &Lent) -> Option<String> {
        let word = wanted.word();
        if self.word != word {
            return Some(format!("the raw function answers {:#018x} and not {word:#018x}", self.word));
        }
        if self.lent != *after {
            return Some(format!("the raw function leaves {:?} and not {after:?}", self.lent));
        }
        (!self.is_kept).then(|| "the raw function writes where it must not".to_string())
    }
}

/// A question about a chart, which the function gets by its start and its length.
fn about(chart: &[i16], function: impl FnOnce(*const i16, usize) -> u64) -> Outcome {
    let mut framed = Framed::new(chart);
    let word = function(framed.start(), chart.len());
    Outcome { word, lent: Lent::Nothing, is_kept: framed.is_as(chart) }
}

fn area(chart: &[i16]) -> Outcome {
    let mut area = AREA;
    let outcome = about(chart, |start, length| unsafe { bz_area2(start, length, &mut area) });
    Outcome { lent: Lent::Area(area), ..outcome }
}

fn head(a: &[i16], b: &[i16]) -> Outcome {
    let (mut first, mut second) = (Framed::new(a), Framed::new(b));
    let word = unsafe { bz_head(first.start(), a.len(), second.start(), b.len()) };
    Outcome { word, lent: Lent::Nothing, is_kept: first.is_as(a) && second.is_as(b) }
}

fn faces(chart: &[i16], rooms: [usize; 2]) -> Outcome {
    let [mut labels, mut cycles] = lists(rooms).map(|list| Framed::new(&list));
    let [to_labels, to_cycles] = [&mut labels, &mut cycles].map(|list| list.array_mut().as_mut_ptr());
    let ask = |start, length| unsafe { bz_faces(start, length, to_labels, rooms[0], to_cycles, rooms[1]) };
    let outcome = about(chart, ask);
    let is_kept = outcome.is_kept && labels.has_margins() && cycles.has_margins();
    Outcome { lent: Lent::Lists([labels, cycles].map(|list| list.array().to_vec())), is_kept, ..outcome }
}

fn join(op: Op, a: &[i16], b: &[i16], room: usize) -> Outcome {
    let function = match op {
        Op::Union => bz_union,
        Op::Intersection => bz_intersection,
        Op::Difference => bz_difference,
    };
    let (mut first, mut second, mut out) = (Framed::new(a), Framed::new(b), Framed::new(&numbers(room)));
    let lent = out.array_mut().as_mut_ptr();
    let word = unsafe { function(first.start(), a.len(), second.start(), b.len(), lent, room) };
    let is_kept = first.is_as(a) && second.is_as(b) && out.has_margins();
    Outcome { word, lent: Lent::Numbers(out.array().to_vec()), is_kept }
}

fn gauge(card: Card, sample: i16) -> Outcome {
    let mut reading = READING;
    let [first, second] = [card.first, card.second].map(f64::from_bits);
    // lent as its bits, whatever float they are
    let pressure: *mut u64 = &mut reading.pressure;
    let word = unsafe { bz_gauge(card.kind, first, second, sample, pressure.cast(), &mut reading.row) };
    Outcome { word, lent: Lent::Reading(reading), is_kept: true }
}

fn read(file: &[u8], room: usize) -> Outcome {
    let (mut bytes, mut out) = (Framed::new(file), Framed::new(&numbers(room)));
    let word = unsafe { bz_read(bytes.start(), file.len(), out.array_mut().as_mut_ptr(), room) };
    Outcome { word, lent: Lent::Numbers(out.array().to_vec()), is_kept: bytes.is_as(file) && out.has_margins() }
}

pub fn ask(question: &Question) -> Outcome {
    match *question {
        Question::Check { chart } => about(chart, |start, length| unsafe { bz_check(start, length) }),
        Question::Point { chart, x, y } => about(chart, |start, length| unsafe { bz_point(start, length, x, y) }),
        Question::Corner { chart, x, y } => about(chart, |start, length| unsafe { bz_corner(start, length, x, y) }),
        Question::Head { a, b } => head(a, b),
        Question::Area { chart } => area(chart),
        Question::Faces { chart, rooms } => faces(chart, rooms),
        Question::Join { op, a, b, room } => join(op, a, b, room),
        Question::Gauge { card, sample } => gauge(card, sample),
        Question::Read { file, room } => read(file, room),
    }
}
