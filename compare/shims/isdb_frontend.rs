//! Stands for the crate `isdb_frontend`: the sync words and the cosine table, both choosable by the
//! test (for its own thread), and the two records that chain/eq.rs converts sums to.

pub mod s3sync {
    use isdbs3_core::constellation::bpsk;
    use isdbs3_core::params::{FSYNC, SSYNC, SYNC_SYMBOLS};
    use num_complex::Complex;
    use std::cell::Cell;

    /// 24 pairs, each part 1 or -1.
    pub type Word = [[i8; 2]; SYNC_SYMBOLS];

    thread_local! {
        static CHOSEN: Cell<Option<[Word; 2]>> = const { Cell::new(None) };
    }

    /// The words that the stages made from now on get.
    pub fn choose_words(f: Word, s: Word) {
        CHOSEN.set(Some([f, s]));
    }

    /// The symbols of a word: the chosen ones, else pi/2-shift BPSK of its bits (first symbol odd).
    pub fn sync_symbols(word: u32) -> [Complex<f64>; SYNC_SYMBOLS] {
        let Some([f, s]) = CHOSEN.get() else {
            return std::array::from_fn(|k| {
                let bit = word >> (SYNC_SYMBOLS - 1 - k) & 1;
                let (i, q) = bpsk(bit as u8, k + 1);
                Complex::new(i, q)
            });
        };
        let chosen = match word {
            FSYNC => f,
            SSYNC => s,
            _ => panic!("no sync word: {word:x}"),
        };
        chosen.map(|[i, q]| Complex::new(f64::from(i), f64::from(q)))
    }
}

pub mod tables {
    use std::cell::RefCell;
    use std::f64::consts::TAU;

    thread_local! {
        static CHOSEN: RefCell<Option<Vec<i16>>> = const { RefCell::new(None) };
    }

    /// The table that the stages made from now on get.
    pub fn choose_table(table: &[i16]) {
        CHOSEN.with_borrow_mut(|t| *t = Some(table.to_vec()));
    }

    /// The chosen table, else `round(32767 cos(2 pi i / 1024))`.
    pub fn cos_table() -> Vec<i16> {
        CHOSEN.with_borrow(Clone::clone).unwrap_or_else(|| {
            (0..1024).map(|i| (32767.0 * (TAU * f64::from(i) / 1024.0).cos()).round() as i16).collect()
        })
    }
}

pub mod control {
    pub mod chain {
        #[derive(Debug, Clone, PartialEq, Eq)]
        pub struct TrainingSums {
            pub frame: u32,
            pub count: u32,
            pub r: Vec<[i64; 2]>,
            pub p: Vec<[i64; 2]>,
        }
    }
}

pub mod slots {
    use crate::control::chain::TrainingSums;

    #[derive(Debug, Clone, PartialEq, Eq)]
    pub struct SumsBlock {
        pub frame: u32,
        pub sums_frame: u32,
        pub count: u16,
        pub r: Vec<[i64; 2]>,
        pub p: Vec<[i64; 2]>,
    }

    impl SumsBlock {
        pub fn to_training(&self) -> TrainingSums {
            TrainingSums { frame: self.sums_frame, count: u32::from(self.count), r: self.r.clone(), p: self.p.clone() }
        }
    }
}
