//! Natural numbers below 2^(64 N), exact, without heap. A result that does not fit panics;
//! each user says why its numbers fit.

// Limbs of several numbers are walked side by side, by their place.
#![allow(clippy::needless_range_loop)]

use std::cmp::Ordering;
use std::ops::{Add, Mul, Shl, Sub};

/// N limbs of 64 bits, lowest first.
#[derive(Clone, Copy, Debug, PartialEq, Eq)]
pub struct Fixed<const N: usize> {
    limbs: [u64; N],
}

impl<const N: usize> Fixed<N> {
    pub const ZERO: Fixed<N> = Fixed { limbs: [0; N] };

    /// The number of limbs up to the highest one that is not zero.
    fn used(&self) -> usize {
        (0..N).rev().find(|&place| self.limbs[place] != 0).map_or(0, |place| place + 1)
    }

    /// The number of binary digits; 0 has none.
    pub fn bit_length(&self) -> u32 {
        match self.used() {
            0 => 0,
            used => 64 * used as u32 - self.limbs[used - 1].leading_zeros(),
        }
    }

    /// Divided by two, rounded down.
    pub fn halved(&self) -> Fixed<N> {
        let mut limbs = [0; N];
        for place in 0..N {
            let above = if place + 1 < N { self.limbs[place + 1] } else { 0 };
            limbs[place] = self.limbs[place] >> 1 | above << 63;
        }
        Fixed { limbs }
    }

    /// How far the two numbers lie apart.
    pub fn distance(self, other: Fixed<N>) -> Fixed<N> {
        if self < other {
            other - self
        } else {
            self - other
        }
    }

    /// Near the number; for printing only.
    pub fn to_f64(self) -> f64 {
        self.limbs
            .iter()
            .rev()
            .fold(0.0, |value, &limb| value * 18_446_744_073_709_551_616.0 + limb as f64)
    }
}

impl<const N: usize> From<u64> for Fixed<N> {
    fn from(value: u64) -> Fixed<N> {
        let mut limbs = [0; N];
        limbs[0] = value;
        Fixed { limbs }
    }
}

impl<const N: usize> Add for Fixed<N> {
    type Output = Fixed<N>;

    fn add(self, other: Fixed<N>) -> Fixed<N> {
        let mut limbs = [0; N];
        let mut carry = false;
        for place in 0..N {
            let (first, over) = self.limbs[place].overflowing_add(other.limbs[place]);
            let (second, over_again) = first.overflowing_add(carry as u64);
            limbs[place] = second;
            carry = over || over_again;
        }
        assert!(!carry, "sum does not fit");
        Fixed { limbs }
    }
}

impl<const N: usize> Sub for Fixed<N> {
    type Output = Fixed<N>;

    fn sub(self, other: Fixed<N>) -> Fixed<N> {
        let mut limbs = [0; N];
        let mut borrow = false;
        for place in 0..N {
            let (first, under) = self.limbs[place].overflowing_sub(other.limbs[place]);
            let (second, under_again) = first.overflowing_sub(borrow as u64);
            limbs[place] = second;
            borrow = under || under_again;
        }
        assert!(!borrow, "negative difference");
        Fixed { limbs }
    }
}

impl<const N: usize> Mul<u64> for Fixed<N> {
    type Output = Fixed<N>;

    fn mul(self, factor: u64) -> Fixed<N> {
        let mut limbs = [0; N];
        let mut carry = 0;
        for place in 0..N {
            let part = self.limbs[place] as u128 * factor as u128 + carry as u128;
            limbs[place] = part as u64;
            carry = (part >> 64) as u64;
        }
        assert!(carry == 0, "product does not fit");
        Fixed { limbs }
    }
}

impl<const N: usize> Mul for Fixed<N> {
    type Output = Fixed<N>;

    fn mul(self, other: Fixed<N>) -> Fixed<N> {
        assert!(self.bit_length() + other.bit_length() <= 64 * N as u32, "product does not fit");
        let (left, right) = (self.used(), other.used());
        let mut limbs = [0; N];
        for start in 0..left {
            let mut carry = 0;
            for place in 0..right.min(N - start) {
                let part = self.limbs[start] as u128 * other.limbs[place] as u128 + limbs[start + place] as u128 + carry as u128;
                limbs[start + place] = part as u64;
                carry = (part >> 64) as u64;
            }
            if start + right < N {
                limbs[start + right] = carry;
            }
        }
        Fixed { limbs }
    }
}

impl<const N: usize> Shl<u32> for Fixed<N> {
    type Output = Fixed<N>;

    fn shl(self, by: u32) -> Fixed<N> {
        let length = self.bit_length();
        if length == 0 {
            return self;
        }
        assert!(by <= 64 * N as u32 - length, "shifted number does not fit");
        let (whole, bits) = ((by / 64) as usize, by % 64);
        let mut limbs = [0; N];
        for place in whole..N {
            let below = if bits > 0 && place > whole {
                self.limbs[place - whole - 1] >> (64 - bits)
            } else {
                0
            };
            limbs[place] = self.limbs[place - whole] << bits | below;
        }
        Fixed { limbs }
    }
}

impl<const N: usize> Ord for Fixed<N> {
    fn cmp(&self, other: &Fixed<N>) -> Ordering {
        let differing = (0..N).rev().find(|&place| self.limbs[place] != other.limbs[place]);
        differing.map_or(Ordering::Equal, |place| self.limbs[place].cmp(&other.limbs[place]))
    }
}

impl<const N: usize> PartialOrd for Fixed<N> {
    fn partial_cmp(&self, other: &Fixed<N>) -> Option<Ordering> {
        Some(self.cmp(other))
    }
}
