//! A small job of the rig controller in Rust: a chart file is read and checked, points are asked about, a gauge's
//! sample is turned into a row, the chart is joined with a second one, the faces and holes of a third are listed, and a
//! refusal of each sort is met. examples/rig.c does the same job and prints the same. From the folder rust/ of the
//! repository, with the examples' charts where no others are named:
//!
//!     cargo run --example rig -- ../examples/square.chart

use berzulka::{area2, check, corner, difference, faces, gauge, head, intersection, point, read, union};
use berzulka::{Card, Head, Refusal, LIMIT, WIDTH};
use std::process::ExitCode;

/// No chart and nothing that is made of two needs more numbers.
const ROOM: usize = LIMIT * WIDTH;

/// Tells a refusal, where the answer is one; else gives the answer.
fn answered<T>(what: &str, answer: Result<T, Refusal>) -> Option<T> {
    answer.inspect_err(|refusal| println!("{what}: {refusal}")).ok()
}

fn say_records(what: &str, records: &[i16]) {
    println!("{what}, {} records", records.len() / WIDTH);
    for r in records.chunks(WIDTH) {
        println!("    ({},{}) to ({},{}), mark {}", r[0], r[1], r[2], r[3], r[4]);
    }
}

fn say_place(chart: &[i16], x: i16, y: i16) {
    if let Some(place) = answered("the point", point(chart, x, y)) {
        println!("({x},{y}): {place:?}");
    }
}

/// Goes through the records of the chart and of a second array in record order, by the smaller head of what is left.
fn say_merged(chart: &[i16]) {
    let (mut a, mut b) = (chart, &[1, 0, 3, 0, 1, 9, 9, 1, 1, 0][..]);
    print!("merged with a second array:");
    loop {
        match head(a, b) {
            Head::Neither => break,
            Head::First(record) => {
                print!(" first");
                a = &a[record.len()..];
            }
            Head::Second(record) => {
                print!(" second");
                b = &b[record.len()..];
            }
        }
    }
    println!();
}

/// The row that a bridge's sample gives, and where the point of that row at time 3 lies.
fn say_sample(chart: &[i16], sample: i16) {
    let bridge = Card::Bridge { gain: 0.5, zero: 0.0 };
    if let Some(reading) = answered("the sample", gauge(bridge, sample)) {
        println!("sample {sample}: pressure {}, row {}", reading.pressure, reading.row);
        say_place(chart, 3, reading.row);
    }
}

/// How many records are made of two charts.
fn say_joined(what: &str, answer: Result<usize, Refusal>) {
    if let Some(records) = answered(what, answer) {
        println!("{what}: {records} records");
    }
}

/// What is made of the chart and the second one, the last time into an array without room.
fn say_joins(chart: &[i16], second: &[i16]) {
    let mut joined = [0; ROOM];
    say_joined("union with the second chart", union(chart, second, &mut joined));
    say_joined("intersection", intersection(chart, second, &mut joined));
    say_joined("difference", difference(chart, second, &mut joined));
    say_joined("union without room", union(chart, second, &mut []));
}

/// Which faces and holes the third chart has: the cycle of each record, and what each cycle is; then without room.
fn say_faces(third: &[i16]) {
    let (mut labels, mut cycles) = ([0; LIMIT], [0; LIMIT]);
    let Some(count) = answered("the third chart", faces(third, &mut labels, &mut cycles)) else { return };
    println!("the third chart: faces {}, cycles {}", count.faces, count.cycles);
    let of_each: Vec<String> = labels[..third.len() / WIDTH].iter().map(u16::to_string).collect();
    println!("    cycle of each record: {}", of_each.join(" "));
    for (i, cycle) in cycles.chunks(2).take(count.cycles).enumerate() {
        println!("    cycle {i}: {} of face {}", if cycle[0] == 1 { "hole" } else { "outer" }, cycle[1]);
    }
    answered("its faces without room", faces(third, &mut labels, &mut []));
}

fn say_refusals(file: &[u8], chart: &mut [i16], second: &[i16]) {
    let (last_byte, last_mark) = (file.len() - 1, chart.len() - 1);
    answered("the file without its last byte", read(&file[..last_byte], chart));
    chart[last_mark] = 1 - chart[last_mark];
    answered("the chart with its last mark changed", check(chart));
    answered("the second chart joined with it", union(second, chart, &mut [0; ROOM]));
    answered("a card with a gain of 3", gauge(Card::Bridge { gain: 3.0, zero: 0.0 }, 5));
}

/// What is asked of a chart that was accepted and has records.
fn say_answers(chart: &[i16]) {
    if let Some(area) = answered("the area", area2(chart)) {
        println!("twice the area: {area}");
    }
    say_place(chart, 2, 2);
    say_place(chart, 4, 2);
    say_place(chart, 5, 2);
    // the run is a part of the chart's own slice: nothing is copied
    let [x, y, ..] = chart[chart.len() - WIDTH..] else { return };
    say_records("at the last corner", corner(chart, x, y));
    say_merged(chart);
    say_sample(chart, 5);
}

/// The numbers that a file gives.
fn numbers(what: &str, file: &[u8]) -> Option<Vec<i16>> {
    let mut numbers = vec![0; ROOM];
    let records = answered(what, read(file, &mut numbers))?;
    numbers.truncate(records * WIDTH);
    Some(numbers)
}

/// The job; nothing where a file or the chart is refused, which is told.
fn job(file: &[u8], second_file: &[u8], third_file: &[u8]) -> Option<()> {
    let mut chart = numbers("the file", file)?;
    let second = numbers("the second file", second_file)?;
    let third = numbers("the third file", third_file)?;
    answered("the chart", check(&chart))?;
    say_records("a sound chart", &chart);
    if !chart.is_empty() {
        say_answers(&chart);
        say_joins(&chart, &second);
        say_faces(&third);
        say_refusals(file, &mut chart, &second);
    }
    Some(())
}

/// The bytes of the file that a word of the command names, else of the chart of an example.
fn load(word: usize, example: &str) -> std::io::Result<Vec<u8>> {
    match std::env::args().nth(word) {
        Some(path) => std::fs::read(path),
        None => std::fs::read(format!("../examples/{example}.chart")),
    }
}

fn run() -> std::io::Result<ExitCode> {
    let (file, second_file, third_file) = (load(1, "square")?, load(2, "neighbour")?, load(3, "square-with-hole")?);
    Ok(ExitCode::from(job(&file, &second_file, &third_file).is_none() as u8))
}

fn main() -> ExitCode {
    run().unwrap_or_else(|e| {
        eprintln!("rig: {e}");
        ExitCode::from(2)
    })
}
