//! The unchanged stages wired as document 01, "The receiver", says; what the bench program prints of a capture by them; a receiver made of the
//! stages' models; calls of the replay program, what they owe, and the calls that are made, by kind.

pub mod beside;
pub mod calls;
pub mod capture;
pub mod damage;
pub mod desk;
pub mod kinds;
pub mod misfits;
pub mod model;
pub mod parts;
pub mod player;
pub mod ranges;
pub mod signal;
pub mod slips;
