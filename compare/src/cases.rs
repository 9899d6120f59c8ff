//! What is compared, and on which inputs: shared by the programs beside it.

pub mod blocks;
pub mod demap;
pub mod eq;
pub mod frame;
pub mod fx;
pub mod inputs;
pub mod phase;
pub mod receiver;
pub mod seen;
pub mod stage;
pub mod sync;

/// The Rust's stages, beside the models. The files of rust/ are compiled for the unchanged Rust, and once more for its copies with opened fields.
#[path = "rust"]
pub mod unchanged {
    use isdbs3_phy as phy;

    pub mod chain;
    pub mod eq;
    pub mod learn;
    pub mod phase;
    pub mod receiver;
    pub mod sync;
    pub mod wired;
}

#[path = "rust"]
pub mod opened {
    use ::opened as phy;

    pub mod back;
    pub mod chain;
    pub mod eq;
    pub mod handed_in;
    pub mod learn;
    pub mod phase;
    pub mod receiver;
    pub mod sync;
    pub mod wired;
}
