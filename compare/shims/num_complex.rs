//! Stands for the crate `num_complex` 0.4: the operations that phy eq.rs uses on `Complex<f64>`.
//!
//! An imitation. Order and number of roundings are those of the crate as its source states them:
//! a product has four multiplications, a quotient multiplies by the conjugate and divides each part
//! by the squared magnitude, `norm` is `hypot`. It bears on `solve` only.

use std::iter::Sum;
use std::ops::{Add, AddAssign, Div, Mul, Sub, SubAssign};

#[derive(Debug, Clone, Copy, PartialEq, Default)]
pub struct Complex<T> {
    pub re: T,
    pub im: T,
}

type C = Complex<f64>;

impl<T> Complex<T> {
    pub const fn new(re: T, im: T) -> Self {
        Self { re, im }
    }
}

impl C {
    pub fn conj(&self) -> C {
        C::new(self.re, -self.im)
    }

    pub fn norm_sqr(&self) -> f64 {
        self.re * self.re + self.im * self.im
    }

    pub fn norm(&self) -> f64 {
        self.re.hypot(self.im)
    }
}

impl Add for C {
    type Output = C;
    fn add(self, o: C) -> C {
        C::new(self.re + o.re, self.im + o.im)
    }
}

impl Sub for C {
    type Output = C;
    fn sub(self, o: C) -> C {
        C::new(self.re - o.re, self.im - o.im)
    }
}

impl Mul for C {
    type Output = C;
    fn mul(self, o: C) -> C {
        C::new(self.re * o.re - self.im * o.im, self.re * o.im + self.im * o.re)
    }
}

impl Mul<f64> for C {
    type Output = C;
    fn mul(self, k: f64) -> C {
        C::new(self.re * k, self.im * k)
    }
}

impl Div for C {
    type Output = C;
    fn div(self, o: C) -> C {
        let size = o.norm_sqr();
        let re = self.re * o.re + self.im * o.im;
        let im = self.im * o.re - self.re * o.im;
        C::new(re / size, im / size)
    }
}

impl AddAssign for C {
    fn add_assign(&mut self, o: C) {
        *self = *self + o;
    }
}

impl SubAssign for C {
    fn sub_assign(&mut self, o: C) {
        *self = *self - o;
    }
}

impl Sum for C {
    fn sum<I: Iterator<Item = C>>(all: I) -> C {
        all.fold(C::new(0.0, 0.0), |s, v| s + v)
    }
}

// the borrowed forms that eq.rs writes
impl Mul<C> for &C {
    type Output = C;
    fn mul(self, o: C) -> C {
        *self * o
    }
}

impl Mul<&C> for &C {
    type Output = C;
    fn mul(self, o: &C) -> C {
        *self * *o
    }
}

impl Mul<f64> for &C {
    type Output = C;
    fn mul(self, k: f64) -> C {
        *self * k
    }
}
