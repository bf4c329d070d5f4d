//! Kinds of answers, to count them by.

use super::answer::Answer;
use crate::rules::chart::Place;
use crate::rules::heads::Head;
use std::fmt::{Display, Formatter, Result as Shown};

#[derive(Clone, Copy, PartialEq, Eq, PartialOrd, Ord)]
pub enum Kind {
    Accepted,
    Outside,
    Inside,
    Edge,
    Run,
    EmptyRun,
    NeitherHead,
    FirstHead,
    SecondHead,
    Area,
    NoFaces,
    Faces,
    Holes,
    Reading,
    Records,
    NoRecords,
    /// by its number
    Refused(u8),
}

impl Kind {
    pub fn of(answer: &Answer) -> Self {
        match answer {
            Answer::Refused(number, ..) => Kind::Refused(*number),
            Answer::Accepted => Kind::Accepted,
            Answer::At(Place::Outside) => Kind::Outside,
            Answer::At(Place::Inside) => Kind::Inside,
            Answer::At(Place::Edge) => Kind::Edge,
            Answer::Run(run) if run.is_empty() => Kind::EmptyRun,
            Answer::Run(_) => Kind::Run,
            Answer::Head(Head::Neither) => Kind::NeitherHead,
            Answer::Head(Head::First) => Kind::FirstHead,
            Answer::Head(Head::Second) => Kind::SecondHead,
            Answer::Area(_) => Kind::Area,
            Answer::Faces(list) if list.faces == 0 => Kind::NoFaces,
            Answer::Faces(list) if list.faces == list.cycles.len() => Kind::Faces,
            Answer::Faces(_) => Kind::Holes,
            Answer::Read(_) => Kind::Reading,
            Answer::Records(numbers) if numbers.is_empty() => Kind::NoRecords,
            Answer::Records(_) => Kind::Records,
        }
    }
}

impl Display for Kind {
    fn fmt(&self, f: &mut Formatter) -> Shown {
        f.pad(match self {
            Kind::Accepted => "accepted",
            Kind::Outside => "Outside",
            Kind::Inside => "Inside",
            Kind::Edge => "Edge",
            Kind::Run => "run",
            Kind::EmptyRun => "empty run",
            Kind::NeitherHead => "neither head",
            Kind::FirstHead => "first head",
            Kind::SecondHead => "second head",
            Kind::Area => "area",
            Kind::NoFaces => "no faces",
            Kind::Faces => "faces",
            Kind::Holes => "faces and holes",
            Kind::Reading => "reading",
            Kind::Records => "records",
            Kind::NoRecords => "no records",
            Kind::Refused(number) => return f.pad(&format!("refused by {number}")),
        })
    }
}
