//! The equaliser and its solver: calls of the replay program, what they owe (the Rust's answers, document 01's refusals),
//! and the calls that are made, by kind.

pub mod beside;
pub mod calls;
pub mod desk;
pub mod kinds;
pub mod model;
pub mod player;
pub mod slips;
pub mod solver;
pub mod systems;
