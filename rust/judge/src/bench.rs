//! How long joining and the list of faces take: the library's time beside that of the rules as they are written here,
//! on charts as large as a chart may be. The answers are held to each other; the times are only told.

use crate::asking::answer::Answer;
use crate::asking::disagreement;
use crate::asking::kind::Kind;
use crate::asking::safe::joining;
use crate::asking::wanted::{Asked, Listing, Pair};
use crate::making::{large_faces, long_pairs};
use crate::rules::joins::{charts, fitted, result, Op, Refusal, OPS};
use std::hint::black_box;
use std::time::Instant;

/// The length of the lent array, which no result passes.
const ROOM: usize = berzulka::LIMIT * berzulka::WIDTH;

fn by_rules(op: Op, a: &[i16], b: &[i16]) -> Result<Vec<i16>, Refusal> {
    let result = result(op, &charts(a, b)?);
    fitted(&result, ROOM).map(<[i16]>::to_vec)
}

/// The milliseconds that one of so many takes.
fn time<T>(count: usize, mut task: impl FnMut() -> T) -> f64 {
    let began = Instant::now();
    (0..count).for_each(|_| drop(black_box(task())));
    began.elapsed().as_secs_f64() * 1000.0 / count as f64
}

fn told(answer: &Answer) -> String {
    match answer {
        Answer::Records(numbers) => format!("{} records", numbers.len() / 5),
        Answer::Faces(list) => format!("{} cycles, {} faces", list.cycles.len(), list.faces),
        other => format!("{}", Kind::of(other)),
    }
}

/// Whether the library answers as wanted; what differs is told.
fn is_right(asked: &Asked) -> bool {
    let what = disagreement(asked);
    what.iter().for_each(|what| println!("{what}"));
    what.is_none()
}

/// Times each join so many times, and says whether both answer alike.
pub fn joins(count: usize) -> bool {
    println!("{:<48}{:>12}{:>12}", "milliseconds for a join", "the library", "the rules");
    let mut is_well = true;
    for (name, a, b) in long_pairs::largest() {
        let (pair, mut out) = (Pair::new(&a, &b), vec![0; ROOM]);
        for op in OPS {
            let asked = pair.join(op, ROOM);
            is_well &= is_right(&asked);
            let library = time(count, || joining(op)(black_box(&a), &b, &mut out));
            let rules = time(count, || by_rules(op, black_box(&a), &b));
            println!("{:<48}{library:>12.3}{rules:>12.3}", format!("{name}, {op:?}: {}", told(&asked.1)));
        }
    }
    is_well
}

/// Times each list of faces so many times, and says whether both answer alike.
pub fn faces(count: usize) -> bool {
    println!("{:<56}{:>12}{:>12}", "milliseconds for a list of faces", "the library", "the rules");
    let mut is_well = true;
    for (name, chart, _) in large_faces::largest() {
        let (mut labels, mut cycles) = ([0; berzulka::LIMIT], [0; berzulka::LIMIT]);
        let asked = Listing::new(&chart).faces([labels.len(), cycles.len()]);
        is_well &= is_right(&asked);
        let library = time(count, || berzulka::faces(black_box(&chart), &mut labels, &mut cycles));
        let rules = time(count, || Listing::new(black_box(&chart)).list);
        println!("{:<56}{library:>12.3}{rules:>12.3}", format!("{name}: {}", told(&asked.1)));
    }
    is_well
}
