//! The faces and holes of a chart.

use crate::raw::{self, Answer};
use crate::Refusal;

/// How many cycles the boundary of a chart has, and how many faces. Each face has one outer cycle, and every other
/// cycle is a hole.
#[derive(Clone, Copy, PartialEq, Eq, Hash, Debug)]
pub struct FaceCount {
    /// How many cycles.
    pub cycles: usize,
    /// How many faces.
    pub faces: usize,
}

/// Which faces and holes does it have? The boundary goes in cycles, each the outer one of a face or a hole in one. Into
/// `labels` goes the number of its cycle for each record, into `cycles` two numbers for each cycle: 0 where it is an
/// outer one or 1 where it is a hole, and the face. Cycles are numbered by their first records, faces by their outer
/// cycles. What lies beyond in either array stays, and all of both where the question is refused; by 10 it is refused
/// where either is too short.
///
/// ```
/// use berzulka::{faces, FaceCount};
///
/// // document 01's square with a hole that touches its corner (0,0)
/// let chart = [
///     0, 0, 4, 0, 1,  0, 0, 2, 1, 0,  0, 0, 1, 2, 1,  0, 0, 0, 4, 0,  0, 4, 0, 0, 0,  0, 4, 4, 4, 0,  1, 2, 0, 0, 1,
///     1, 2, 2, 1, 1,  2, 1, 1, 2, 1,  2, 1, 0, 0, 0,  4, 0, 0, 0, 1,  4, 0, 4, 4, 1,  4, 4, 0, 4, 0,  4, 4, 4, 0, 1,
/// ];
/// let (mut labels, mut cycles) = ([7; 15], [7; 5]);
/// assert_eq!(faces(&chart, &mut labels, &mut cycles), Ok(FaceCount { cycles: 2, faces: 1 }));
/// assert_eq!(labels, [0, 1, 1, 0, 0, 0, 1, 1, 1, 1, 0, 0, 0, 0, 7]);
/// assert_eq!(cycles, [0, 0, 1, 0, 7]); // the outer one of face 0, and a hole of face 0
/// assert_eq!(faces(&chart, &mut labels, &mut cycles[..3]).unwrap_err().number(), 10);
/// assert_eq!(faces(&[], &mut [], &mut []), Ok(FaceCount { cycles: 0, faces: 0 }));
/// ```
pub fn faces(chart: &[i16], labels: &mut [u16], cycles: &mut [u16]) -> Result<FaceCount, Refusal> {
    let (to_labels, to_cycles) = (labels.as_mut_ptr(), cycles.as_mut_ptr());
    let answer =
        unsafe { raw::bz_faces(chart.as_ptr(), chart.len(), to_labels, labels.len(), to_cycles, cycles.len()) };
    Answer(answer).answered().map(|answer| {
        let (cycles, faces) = answer.counts();
        FaceCount { cycles, faces }
    })
}
