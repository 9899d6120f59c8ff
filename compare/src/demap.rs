//! Demapper and learning: what the C functions and the replay program owe (the Rust's answers, document 01's refusals), and
//! the calls that are made, by kind.

pub mod beside;
pub mod calls;
pub mod desk;
pub mod kinds;
pub mod model;
pub mod player;
pub mod slips;
pub mod soft;
