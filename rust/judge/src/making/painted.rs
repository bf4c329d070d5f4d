//! Subdivisions of the plane with some pieces painted, from which charts come whose faces and holes are known. Pieces
//! share whole sides. A face is what one can reach in paint from a painted piece, from side to side and not through
//! corners; and what is not of that face falls apart, from side to side again, into what lies around it and what fills
//! its holes. Each of these has one cycle in common with the face.

use super::grid::Way;
use super::owners::{Owner, Owners};
use super::regions::{sides, ways, Piece};
use super::sides::{array, side_of, Side};
use crate::rules::segments::Segment;
use std::collections::HashMap;

pub struct Painted {
    pub pieces: Vec<Piece>,
    pub is_painted: Vec<bool>,
}

/// A side of a piece, and which piece lies on the other side; the plane around all is the last.
struct Border {
    segment: Segment,
    piece: usize,
    beyond: usize,
}

impl Painted {
    /// The pieces whose bits are set are painted.
    pub fn by_bits(pieces: &[Piece], bits: usize) -> Self {
        Painted { pieces: pieces.to_vec(), is_painted: (0..pieces.len()).map(|i| bits >> i & 1 == 1).collect() }
    }

    pub fn chart(&self) -> Vec<i16> {
        let painted = self.pieces.iter().zip(&self.is_painted).filter(|(_, &is)| is).map(|(piece, _)| piece.clone());
        array(&sides(&painted.collect::<Vec<Piece>>()).into_iter().map(side_of).collect::<Vec<Side>>())
    }

    fn borders(&self) -> Vec<Border> {
        let of_piece = |(piece, corners): (usize, &Piece)| ways(corners).map(|way| (way, piece)).collect::<Vec<_>>();
        let all: Vec<(Way, usize)> = self.pieces.iter().enumerate().flat_map(of_piece).collect();
        let known: HashMap<Way, usize> = all.iter().copied().collect();
        let border = |((from, to), piece): (Way, usize)| {
            let beyond = known.get(&(to, from)).copied().unwrap_or(self.pieces.len());
            Border { segment: Segment::between(from, to), piece, beyond }
        };
        all.into_iter().map(border).collect()
    }

    /// What each side between paint and none belongs to.
    pub fn owners(&self) -> Owners {
        let (borders, around) = (self.borders(), self.pieces.len());
        let is_painted = |piece: usize| piece < around && self.is_painted[piece];
        let face_of = reached(around + 1, &borders, is_painted);
        let mut owners = Owners::new();
        for face in 0..around {
            if !is_painted(face) || face_of[face] != face {
                continue;
            }
            let rest = reached(around + 1, &borders, |piece| !is_painted(piece) || face_of[piece] != face);
            for border in borders.iter().filter(|b| face_of[b.piece] == face && !is_painted(b.beyond)) {
                let beyond = rest[border.beyond];
                let owner = Owner { cycle: (face, beyond), is_hole: beyond != rest[around], face };
                owners.insert(border.segment, owner);
            }
        }
        owners
    }
}

/// For each piece that is meant the first one that can be reached from it over sides between such pieces; for any other
/// itself.
fn reached(pieces: usize, borders: &[Border], is_meant: impl Fn(usize) -> bool) -> Vec<usize> {
    let mut first: Vec<usize> = (0..pieces).collect();
    let links: Vec<&Border> = borders.iter().filter(|b| is_meant(b.piece) && is_meant(b.beyond)).collect();
    loop {
        let before = first.clone();
        for link in &links {
            let least = first[link.piece].min(first[link.beyond]);
            (first[link.piece], first[link.beyond]) = (least, least);
        }
        if first == before {
            return first;
        }
    }
}
