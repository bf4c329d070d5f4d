//! Questions put through the safe wrapper. A part that is handed back must be that very part of the array.

use super::answer::Answer;
use super::framed::Framed;
use super::lent::{lists, numbers, Lent};
use super::question::Question;
use crate::rules::chart::Place;
use crate::rules::faces::Faces;
use crate::rules::gauges::{Card, Reading};
use crate::rules::heads::Head;
use crate::rules::joins::Op;
use berzulka::Refusal;
use std::ptr::eq;

pub struct Told {
    /// none where a part is handed back that is not the array's
    answer: Option<Answer>,
    lent: Lent,
    is_kept: bool,
}

impl Told {
    pub fn disagreement(&self, wanted: &Answer, after: &Lent) -> Option<String> {
        if self.answer.as_ref() != Some(wanted) {
            let told = self.answer.as_ref().map_or("no part of the array".to_string(), |answer| format!("{answer:?}"));
            return Some(format!("the wrapper answers {told}"));
        }
        // only arrays are lent through the wrapper
        if matches!(self.lent, Lent::Numbers(_) | Lent::Lists(_)) && self.lent != *after {
            return Some(format!("the wrapper leaves {:?} and not {after:?}", self.lent));
        }
        (!self.is_kept).then(|| "the wrapper writes where it must not".to_string())
    }
}

/// The answer to a question that is refused or has a value.
fn told<T>(result: Result<T, Refusal>, answer: impl FnOnce(T) -> Option<Answer>) -> Option<Answer> {
    match result {
        Ok(value) => answer(value),
        Err(refusal) => {
            Some(Answer::Refused(u8::try_from(refusal.number()).ok()?, refusal.index(), refusal.chart()))
        }
    }
}

fn at(place: berzulka::Place) -> Option<Answer> {
    Some(Answer::At(match place {
        berzulka::Place::Outside => Place::Outside,
        berzulka::Place::Inside => Place::Inside,
        berzulka::Place::Edge => Place::Edge,
    }))
}

/// Where a part lies in the array that it is a part of; an empty one may lie anywhere.
fn run(array: &[i16], part: &[i16]) -> Option<Answer> {
    let Some(first) = part.first() else { return Some(Answer::Run(0..0)) };
    let start = array.iter().position(|number| eq(number, first))?;
    Some(Answer::Run(start..start + part.len()))
}

/// A head is the first five numbers of its array, from where they begin.
fn smaller(a: &[i16], b: &[i16]) -> Option<Answer> {
    let is_head = |array: &[i16], part: &[i16]| array.get(..5).is_some_and(|first| eq(first, part));
    let head = match berzulka::head(a, b) {
        berzulka::Head::Neither => Head::Neither,
        berzulka::Head::First(part) => is_head(a, part).then_some(Head::First)?,
        berzulka::Head::Second(part) => is_head(b, part).then_some(Head::Second)?,
    };
    Some(Answer::Head(head))
}

fn about(chart: &[i16], function: impl FnOnce(&[i16]) -> Option<Answer>) -> Told {
    let framed = Framed::new(chart);
    let answer = function(framed.array());
    Told { answer, lent: Lent::Nothing, is_kept: framed.is_as(chart) }
}

fn head(a: &[i16], b: &[i16]) -> Told {
    let (first, second) = (Framed::new(a), Framed::new(b));
    let answer = smaller(first.array(), second.array());
    Told { answer, lent: Lent::Nothing, is_kept: first.is_as(a) && second.is_as(b) }
}

/// The list that was written, by how many cycles it is said to have.
fn list(records: usize, count: berzulka::FaceCount, labels: &[u16], cycles: &[u16]) -> Option<Answer> {
    let pairs = cycles.get(..2 * count.cycles)?.chunks(2).map(|pair| [pair[0], pair[1]]);
    let labels = labels.get(..records)?.to_vec();
    Some(Answer::Faces(Faces { labels, cycles: pairs.collect(), faces: count.faces }))
}

fn faces(chart: &[i16], rooms: [usize; 2]) -> Told {
    let (framed, [mut labels, mut cycles]) = (Framed::new(chart), lists(rooms).map(|list| Framed::new(&list)));
    let result = berzulka::faces(framed.array(), labels.array_mut(), cycles.array_mut());
    let answer = told(result, |count| list(chart.len() / 5, count, labels.array(), cycles.array()));
    let is_kept = framed.is_as(chart) && labels.has_margins() && cycles.has_margins();
    Told { answer, lent: Lent::Lists([labels, cycles].map(|list| list.array().to_vec())), is_kept }
}

/// The wrapper has no cards of other kinds, so these are not asked about.
fn gauge(card: Card, sample: i16) -> Option<Told> {
    let [first, second] = [card.first, card.second].map(f64::from_bits);
    let card = match card.kind {
        0 => berzulka::Card::Spring { rate: first, pin: second },
        1 => berzulka::Card::Bridge { gain: first, zero: second },
        _ => return None,
    };
    let reading = |r: berzulka::Reading| Some(Answer::Read(Reading { pressure: r.pressure.to_bits(), row: r.row }));
    Some(Told { answer: told(berzulka::gauge(card, sample), reading), lent: Lent::Nothing, is_kept: true })
}

/// What was written into a lent array, by how many records it is said to be.
fn written(result: Result<usize, Refusal>, out: &Framed<i16>, is_kept: bool) -> Told {
    let all = out.array().to_vec();
    let answer = told(result, |records| Some(Answer::Records(all.get(..5 * records)?.to_vec())));
    Told { answer, lent: Lent::Numbers(all), is_kept: is_kept && out.has_margins() }
}

/// The wrapper's function for an operation.
pub fn joining(op: Op) -> fn(&[i16], &[i16], &mut [i16]) -> Result<usize, Refusal> {
    match op {
        Op::Union => berzulka::union,
        Op::Intersection => berzulka::intersection,
        Op::Difference => berzulka::difference,
    }
}

fn join(op: Op, a: &[i16], b: &[i16], room: usize) -> Told {
    let (first, second, mut out) = (Framed::new(a), Framed::new(b), Framed::new(&numbers(room)));
    let result = joining(op)(first.array(), second.array(), out.array_mut());
    written(result, &out, first.is_as(a) && second.is_as(b))
}

fn read(file: &[u8], room: usize) -> Told {
    let (bytes, mut out) = (Framed::new(file), Framed::new(&numbers(room)));
    let result = berzulka::read(bytes.array(), out.array_mut());
    written(result, &out, bytes.is_as(file))
}

/// What the wrapper answers, where its types can say the question.
pub fn ask(question: &Question) -> Option<Told> {
    Some(match *question {
        Question::Check { chart } => about(chart, |all| told(berzulka::check(all), |()| Some(Answer::Accepted))),
        Question::Point { chart, x, y } => about(chart, |all| told(berzulka::point(all, x, y), at)),
        Question::Corner { chart, x, y } => about(chart, |all| run(all, berzulka::corner(all, x, y))),
        Question::Head { a, b } => head(a, b),
        Question::Area { chart } => about(chart, |all| told(berzulka::area2(all), |v| Some(Answer::Area(v)))),
        Question::Faces { chart, rooms } => faces(chart, rooms),
        Question::Join { op, a, b, room } => join(op, a, b, room),
        Question::Gauge { card, sample } => return gauge(card, sample),
        Question::Read { file, room } => read(file, room),
    })
}
