//! The equaliser, written from document 01 and docs/RANGES.md: not from the port, and with other arithmetic than the Rust's.

use super::calls::{Equaliser, Pairs, Sums};

pub const LIMIT: u32 = 4_194_304;
/// Where entries end: on the diagonal, and elsewhere.
pub const GREATEST: i64 = 1 << 53;
pub const LEAST: i64 = -((1 << 53) - (1 << 38));
pub const TURN: i64 = (1 << 53) - (1 << 37);

/// What may be wrong in a stand-in.
#[derive(Clone, Copy)]
pub struct Rules {
    /// Symbols after which there is an output ..
    pub outputs_from: u32,
    /// .. and after which a training counts.
    pub trains_from: u32,
    /// An output's half goes up; otherwise it is cut.
    pub rounds: bool,
    pub lowest: i64,
    /// The factor whose conjugate is taken is the row's.
    pub conj_of_row: bool,
    pub counts: bool,
    /// The reference goes to the right-hand entries as it is, not as its conjugate.
    pub reference_plain: bool,
    /// A diagonal entry has no imaginary part.
    pub diagonal_real: bool,
    /// A restart drops open sums, clears the line, and keeps the taps.
    pub restart_drops: bool,
    pub restart_clears: bool,
    pub restart_keeps_taps: bool,
    /// The identity's place among the taps.
    pub centre: usize,
    /// An opening starts from nothing.
    pub open_clears: bool,
    /// A closing closes.
    pub close_closes: bool,
    /// A loading names its frame.
    pub load_names: bool,
    pub limit: u32,
    /// How far an entry may be beyond its range.
    pub spare: i64,
    /// Sums that are not open are not looked at.
    pub closed_unseen: bool,
    /// The fill that is in range.
    pub fill: u32,
    /// The entries below the diagonal are the conjugates of those above, and so is each on it of what was given.
    pub lower_turned: bool,
    pub diagonal_turned: bool,
    /// The pivot is the greatest; otherwise the first row.
    pub pivots: bool,
    /// A pivot's least squared magnitude.
    pub tiny: f64,
    /// Of rows of one size the later one is the pivot.
    pub later_row: bool,
    /// A first row that is no number stays the pivot.
    pub no_number_stays: bool,
    /// Each product is rounded, and each part of a quotient is one division.
    pub products_rounded: bool,
    pub divides: bool,
    /// The greatest size of a solver's entry.
    pub entry: i64,
    /// A tap's half goes away from zero; otherwise up.
    pub halves_away: bool,
    pub lowest_tap: f64,
}

pub const RULES: Rules = Rules {
    outputs_from: 6,
    trains_from: 11,
    rounds: true,
    lowest: -32_768,
    conj_of_row: true,
    counts: true,
    reference_plain: true,
    diagonal_real: true,
    restart_drops: true,
    restart_clears: true,
    restart_keeps_taps: true,
    centre: 5,
    open_clears: true,
    close_closes: true,
    load_names: true,
    limit: LIMIT,
    spare: 0,
    closed_unseen: true,
    fill: 11,
    lower_turned: true,
    diagonal_turned: true,
    pivots: true,
    tiny: 1e-24,
    later_row: true,
    no_number_stays: true,
    products_rounded: true,
    divides: true,
    entry: GREATEST,
    halves_away: true,
    lowest_tap: -32_768.0,
};

type Complex = (i128, i128);

fn symbol(l: &Pairs, k: usize) -> Complex {
    (l[2 * k].into(), l[2 * k + 1].into())
}

fn product((a, b): Complex, (c, d): Complex) -> Complex {
    (a * c - b * d, a * d + b * c)
}

fn conj((a, b): Complex) -> Complex {
    (a, -b)
}

fn add(at: &mut [i64], (re, im): Complex) {
    at[0] = (i128::from(at[0]) + re).try_into().expect("64 bits");
    at[1] = (i128::from(at[1]) + im).try_into().expect("64 bits");
}

pub fn no_sums(frame: u32) -> Sums {
    Sums { frame, count: 0, r: [0; 132], p: [0; 22] }
}

/// Which of the upper entries stand on the diagonal.
pub const DIAGONAL: [usize; 11] = [0, 11, 21, 30, 38, 45, 51, 56, 60, 63, 65];

/// Rows and columns of the upper entries, in their order.
pub fn upper() -> impl Iterator<Item = (usize, usize)> {
    (0..121).map(|k| (k / 11, k % 11)).filter(|(r, c)| r <= c)
}

impl Rules {
    pub fn identity(&self) -> Pairs {
        let mut taps = [0; 22];
        taps[2 * self.centre] = 16_384;
        taps
    }

    pub fn start(&self) -> Equaliser {
        Equaliser { line: [0; 22], filled: 0, taps: self.identity(), from: None, opened: false, sums: no_sums(0) }
    }

    fn product_in_range(&self, re: i64, im: i64) -> bool {
        (LEAST - self.spare..=GREATEST + self.spare).contains(&re)
            && (-TURN - self.spare..=TURN + self.spare).contains(&im)
    }

    /// A diagonal entry is a sum of squares.
    pub fn sums_in_range(&self, s: &Sums) -> bool {
        let square =
            |k: &usize| s.r[2 * k] >= -self.spare && s.r[2 * k + 1].unsigned_abs() <= self.spare.unsigned_abs();
        s.count <= self.limit
            && s.r.chunks_exact(2).chain(s.p.chunks_exact(2)).all(|v| self.product_in_range(v[0], v[1]))
            && DIAGONAL.iter().all(square)
    }

    pub fn in_range(&self, e: &Equaliser) -> bool {
        e.filled <= self.fill && (!e.opened && self.closed_unseen || self.sums_in_range(&e.sums))
    }

    fn refusal(&self, e: &Equaliser) -> u8 {
        if self.in_range(e) {
            0
        } else {
            6
        }
    }

    pub fn restart(&self, e: &mut Equaliser) -> u8 {
        let refusal = self.refusal(e);
        if refusal == 0 {
            let new = self.start();
            let line = if self.restart_clears { new.line } else { e.line };
            let taps = if self.restart_keeps_taps { e.taps } else { new.taps };
            let (opened, sums) = if self.restart_drops { (false, new.sums) } else { (e.opened, e.sums) };
            *e = Equaliser { line, filled: 0, taps, from: e.from, opened, sums };
        }
        refusal
    }

    /// The floor of v / 2^14 + 1/2, saturated.
    fn rounded(&self, v: i128) -> i16 {
        let half = if self.rounds { 8_192 } else { 0 };
        let whole = (v + half).div_euclid(16_384) as i64;
        whole.clamp(self.lowest, 32_767) as i16
    }

    fn filtered(&self, e: &Equaliser) -> [i16; 2] {
        let products = (0..11).map(|k| product(symbol(&e.taps, k), symbol(&e.line, k)));
        let (re, im) = products.fold((0, 0), |(a, b), (c, d)| (a + c, b + d));
        [self.rounded(re), self.rounded(im)]
    }

    pub fn push(&self, e: &mut Equaliser, y: [i16; 2]) -> (u8, Option<[i16; 2]>) {
        match self.refusal(e) {
            0 => (0, self.pushed(e, y)),
            refusal => (refusal, None),
        }
    }

    /// One that is taken.
    pub fn pushed(&self, e: &mut Equaliser, y: [i16; 2]) -> Option<[i16; 2]> {
        e.line = std::array::from_fn(|k| if k < 2 { y[k] } else { e.line[k - 2] });
        e.filled = (e.filled + 1).min(11);
        (e.filled >= self.outputs_from).then(|| self.filtered(e))
    }

    pub fn output(&self, e: &Equaliser) -> (u8, Option<[i16; 2]>) {
        let refusal = self.refusal(e);
        (refusal, (refusal == 0).then(|| self.filtered(e)))
    }

    pub fn open(&self, e: &mut Equaliser, frame: u32) -> u8 {
        let refusal = self.refusal(e);
        if refusal == 0 {
            e.sums = if self.open_clears { no_sums(frame) } else { Sums { frame, ..e.sums } };
            e.opened = true;
        }
        refusal
    }

    fn trains(&self, e: &Equaliser) -> bool {
        e.opened && e.filled >= self.trains_from
    }

    pub fn train(&self, e: &mut Equaliser, d: [i16; 2]) -> u8 {
        let refusal = self.refusal(e);
        if refusal != 0 {
            return refusal;
        }
        if self.trains(e) && e.sums.count >= self.limit {
            return 8;
        }
        self.trained(e, d);
        0
    }

    /// One that is taken.
    pub fn trained(&self, e: &mut Equaliser, d: [i16; 2]) {
        if !self.trains(e) {
            return;
        }
        let turned = |a, b| if self.conj_of_row { product(conj(a), b) } else { product(a, conj(b)) };
        for ((r, c), at) in upper().zip(e.sums.r.chunks_mut(2)) {
            let (re, im) = turned(symbol(&e.line, r), symbol(&e.line, c));
            let more = if self.diagonal_real || r != c { 0 } else { re };
            add(at, (re, im + more));
        }
        let d = (d[0].into(), d[1].into());
        let d = if self.reference_plain { d } else { conj(d) };
        for (r, at) in e.sums.p.chunks_mut(2).enumerate() {
            add(at, product(conj(symbol(&e.line, r)), d));
        }
        e.sums.count += u32::from(self.counts);
    }

    /// The sums, if any were open.
    pub fn close(&self, e: &mut Equaliser) -> (u8, Option<Sums>) {
        let refusal = self.refusal(e);
        let ended = (refusal == 0 && e.opened).then_some(e.sums);
        if ended.is_some() && self.close_closes {
            (e.opened, e.sums) = (false, no_sums(0));
        }
        (refusal, ended)
    }

    pub fn load(&self, e: &mut Equaliser, frame: u32, taps: Pairs) -> u8 {
        let refusal = self.refusal(e);
        if refusal == 0 {
            e.taps = taps;
            e.from = if self.load_names { Some(frame) } else { e.from };
        }
        refusal
    }
}
