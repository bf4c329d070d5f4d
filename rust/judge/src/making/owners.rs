//! Which cycle and which face each side of a chart belongs to, where that is known from how the chart was made and from
//! no walk.

use crate::rules::faces::Faces;
use crate::rules::records::record_of;
use crate::rules::segments::Segment;
use std::collections::BTreeMap;

/// What a side belongs to, by names that mean nothing but what is the same and what is not.
#[derive(Clone, Copy, PartialEq, Eq)]
pub struct Owner {
    pub cycle: (usize, usize),
    pub is_hole: bool,
    pub face: usize,
}

pub type Owners = BTreeMap<Segment, Owner>;

/// The names in the order in which they come up, each once.
fn in_order<T: Copy + PartialEq>(names: impl Iterator<Item = T>) -> Vec<T> {
    names.fold(vec![], |mut all, name| {
        if !all.contains(&name) {
            all.push(name);
        }
        all
    })
}

fn place<T: PartialEq>(all: &[T], name: &T) -> u16 {
    all.iter().position(|other| other == name).expect("a name that came up") as u16
}

/// The list that an array's faces and holes make. "Cycles are numbered by smallest record index, faces by their outer
/// cycles' order."
pub fn listed(numbers: &[i16], owners: &Owners) -> Faces {
    let of_records: Vec<Owner> = numbers.chunks_exact(5).map(|r| owners[&Segment::of(record_of(r))]).collect();
    let cycles = in_order(of_records.iter().copied());
    let names: Vec<(usize, usize)> = cycles.iter().map(|owner| owner.cycle).collect();
    let faces: Vec<usize> = cycles.iter().filter(|owner| !owner.is_hole).map(|owner| owner.face).collect();
    Faces {
        labels: of_records.iter().map(|owner| place(&names, &owner.cycle)).collect(),
        cycles: cycles.iter().map(|owner| [owner.is_hole as u16, place(&faces, &owner.face)]).collect(),
        faces: faces.len(),
    }
}
