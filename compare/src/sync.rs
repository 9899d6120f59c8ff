//! The slot sync: calls of the replay program, what they owe (the Rust's answers, document 01's refusals), and streams.

pub mod beside;
pub mod calls;
pub mod correlate;
pub mod desk;
pub mod model;
pub mod player;
pub mod slips;
pub mod streams;
