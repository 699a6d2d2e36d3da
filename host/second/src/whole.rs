//! Natural numbers of any size, exact.

use std::cmp::Ordering;

/// A natural number: 64-bit limbs, lowest first, the highest one never zero.
#[derive(Clone, Debug, PartialEq, Eq, Default)]
pub struct Whole {
    limbs: Vec<u64>,
}

/// From this many limbs on, a product is split in halves.
const SPLIT: usize = 32;

impl Whole {
    pub fn zero() -> Whole {
        Whole { limbs: Vec::new() }
    }

    pub fn one() -> Whole {
        Whole::from(1)
    }

    /// 2^exponent.
    pub fn power_of_two(exponent: usize) -> Whole {
        Whole::one().shifted_left(exponent)
    }

    fn from_limbs(mut limbs: Vec<u64>) -> Whole {
        while limbs.last() == Some(&0) {
            limbs.pop();
        }
        Whole { limbs }
    }

    pub fn is_zero(&self) -> bool {
        self.limbs.is_empty()
    }

    /// The number of binary digits; 0 has none.
    pub fn bit_length(&self) -> usize {
        match self.limbs.last() {
            None => 0,
            Some(top) => 64 * self.limbs.len() - top.leading_zeros() as usize,
        }
    }

    /// Whether 2^exponent is at most this number, for any exponent, negative ones included.
    pub fn reaches_power_of_two(&self, exponent: i128) -> bool {
        !self.is_zero() && exponent < self.bit_length() as i128
    }

    pub fn plus(&self, other: &Whole) -> Whole {
        let mut limbs = self.limbs.clone();
        add_at(&mut limbs, &other.limbs, 0);
        Whole { limbs }
    }

    /// The difference; it panics where it would be negative.
    pub fn minus(&self, other: &Whole) -> Whole {
        assert!(*self >= *other, "negative difference");
        let mut limbs = self.limbs.clone();
        let mut borrow = false;
        for (place, limb) in limbs.iter_mut().enumerate() {
            let taken = other.limbs.get(place).copied().unwrap_or(0);
            let (first, under) = limb.overflowing_sub(taken);
            let (second, under_again) = first.overflowing_sub(borrow as u64);
            *limb = second;
            borrow = under || under_again;
        }
        Whole::from_limbs(limbs)
    }

    pub fn times(&self, other: &Whole) -> Whole {
        Whole::from_limbs(product(&self.limbs, &other.limbs))
    }

    pub fn times_small(&self, factor: u64) -> Whole {
        self.times(&Whole::from(factor))
    }

    pub fn shifted_left(&self, by: usize) -> Whole {
        if self.is_zero() {
            return Whole::zero();
        }
        let mut limbs = vec![0; by / 64];
        let bits = by % 64;
        let mut carry = 0;
        for &limb in &self.limbs {
            limbs.push(limb << bits | carry);
            carry = if bits == 0 { 0 } else { limb >> (64 - bits) };
        }
        limbs.push(carry);
        Whole::from_limbs(limbs)
    }

    /// By repeated squaring; anything to the power 0 is 1.
    pub fn pow(&self, mut exponent: u32) -> Whole {
        let mut result = Whole::one();
        let mut square = self.clone();
        while exponent > 0 {
            if exponent % 2 == 1 {
                result = result.times(&square);
            }
            exponent /= 2;
            if exponent > 0 {
                square = square.times(&square);
            }
        }
        result
    }

    /// Quotient rounded down and remainder, by long division in binary; it panics on division by 0.
    pub fn divided_by(&self, divisor: &Whole) -> (Whole, Whole) {
        assert!(!divisor.is_zero(), "division by zero");
        let mut remainder = self.clone();
        let mut quotient = Whole::zero();
        let places = self.bit_length().saturating_sub(divisor.bit_length());
        for place in (0..=places).rev() {
            let part = divisor.shifted_left(place);
            if part <= remainder {
                remainder = remainder.minus(&part);
                quotient = quotient.plus(&Whole::power_of_two(place));
            }
        }
        (quotient, remainder)
    }
}

impl From<u64> for Whole {
    fn from(value: u64) -> Whole {
        Whole::from_limbs(vec![value])
    }
}

impl Ord for Whole {
    fn cmp(&self, other: &Whole) -> Ordering {
        let by_length = self.limbs.len().cmp(&other.limbs.len());
        by_length.then_with(|| self.limbs.iter().rev().cmp(other.limbs.iter().rev()))
    }
}

impl PartialOrd for Whole {
    fn partial_cmp(&self, other: &Whole) -> Option<Ordering> {
        Some(self.cmp(other))
    }
}

/// Adds the number `part`, moved up by `at` limbs, to the number in `limbs`.
fn add_at(limbs: &mut Vec<u64>, part: &[u64], at: usize) {
    if limbs.len() < at + part.len() {
        limbs.resize(at + part.len(), 0);
    }
    let mut carry = false;
    for (place, limb) in limbs.iter_mut().enumerate().skip(at) {
        let added = part.get(place - at).copied();
        if added.is_none() && !carry {
            return;
        }
        let (first, over) = limb.overflowing_add(added.unwrap_or(0));
        let (second, over_again) = first.overflowing_add(carry as u64);
        *limb = second;
        carry = over || over_again;
    }
    if carry {
        limbs.push(1);
    }
}

/// The product of two rows of limbs.
fn product(left: &[u64], right: &[u64]) -> Vec<u64> {
    let (short, long) = if left.len() < right.len() { (left, right) } else { (right, left) };
    let half = long.len().div_ceil(2);
    if short.len() < SPLIT {
        schoolbook_product(short, long)
    } else if short.len() <= half {
        let mut result = product(short, &long[..half]);
        add_at(&mut result, &product(short, &long[half..]), half);
        result
    } else {
        split_product(short, long, half)
    }
}

fn schoolbook_product(left: &[u64], right: &[u64]) -> Vec<u64> {
    let mut result = vec![0; left.len() + right.len()];
    for (start, &factor) in left.iter().enumerate() {
        let mut carry = 0;
        for (place, &limb) in result[start..].iter_mut().zip(right) {
            let sum = factor as u128 * limb as u128 + *place as u128 + carry as u128;
            *place = sum as u64;
            carry = (sum >> 64) as u64;
        }
        result[start + right.len()] = carry;
    }
    result
}

/// Karatsuba's way: with B the weight of the cut, (a1 B + a0)(b1 B + b0) from three products.
fn split_product(left: &[u64], right: &[u64], half: usize) -> Vec<u64> {
    let (left_low, left_high) = left.split_at(half);
    let (right_low, right_high) = right.split_at(half);
    let low = product(left_low, right_low);
    let high = product(left_high, right_high);
    let mut left_sum = left_low.to_vec();
    add_at(&mut left_sum, left_high, 0);
    let mut right_sum = right_low.to_vec();
    add_at(&mut right_sum, right_high, 0);
    let all = Whole::from_limbs(product(&left_sum, &right_sum));
    let outer = Whole::from_limbs(low.clone()).plus(&Whole::from_limbs(high.clone()));
    let middle = all.minus(&outer);
    let mut result = low;
    add_at(&mut result, &middle.limbs, half);
    add_at(&mut result, &high, 2 * half);
    result
}
