//! The judges: what each asks, and how its own answers are held to others.

pub mod charts;
pub mod faces;
pub mod files;
pub mod gauges;
pub mod heads;
pub mod joins;
pub mod lists;
pub mod nearest;
pub mod objections;
pub mod pipe;
pub mod results;
pub mod tape;
