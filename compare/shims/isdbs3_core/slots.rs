//! Stands for `isdbs3_core::slots`: a slot's description, and the layout of a frame, which the test
//! chooses (for its own thread) instead of reading it from TMCC.

use crate::params::{CodeRate, Modulation};
use crate::tmcc::TmccInfo;
use std::cell::RefCell;

#[derive(Debug, Clone, PartialEq, Eq)]
pub struct Slot {
    pub index: usize,
    pub mode: usize,
    pub modulation: Modulation,
    pub rate: CodeRate,
    pub dummy: bool,
    /// First main symbol of the slot's codeword, counted from the frame's first main symbol.
    pub symbol_start: usize,
    pub symbols: usize,
}

thread_local! {
    static CHOSEN: RefCell<Option<Vec<Slot>>> = const { RefCell::new(None) };
}

pub fn choose_layout(layout: Option<Vec<Slot>>) {
    CHOSEN.set(layout);
}

pub fn layout(_: &TmccInfo) -> Option<Vec<Slot>> {
    CHOSEN.with_borrow(Clone::clone)
}
