//! Document 01's rules, from its sentences, with wide integers and exact fractions. Nothing here knows the library: a
//! rule that is quoted is the document's own.

pub mod chart;
pub mod exact;
pub mod faces;
pub mod files;
pub mod gauges;
pub mod heads;
pub mod joins;
pub mod records;
pub mod second;
pub mod segments;
