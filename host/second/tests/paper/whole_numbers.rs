//! The exact numbers against the 128-bit numbers of the language, and against each other beyond them.

use crate::helpers::Generator;
use second::fixed::Fixed;
use second::whole::Whole;

fn whole(value: u128) -> Whole {
    Whole::from((value >> 64) as u64).shifted_left(64).plus(&Whole::from(value as u64))
}

fn fixed(value: u128) -> Fixed<4> {
    (Fixed::from((value >> 64) as u64) << 64) + Fixed::from(value as u64)
}

/// Numbers of all lengths up to the given one, the round ones often.
fn number(generator: &mut Generator, digits: u64) -> u128 {
    let length = generator.below(digits + 1) as u32;
    let value = (generator.limb() as u128) << 64 | generator.limb() as u128;
    let cut = if length == 0 { 0 } else { value >> (128 - length) };
    match generator.below(8) {
        0 if length > 0 => 1 << (length - 1),
        1 if length > 0 => u128::MAX >> (128 - length),
        _ => cut,
    }
}

/// Limbs of a long number, highest first.
fn limbs(generator: &mut Generator, count: usize) -> Vec<u64> {
    (0..count)
        .map(|_| [generator.limb(), 0, u64::MAX][generator.below(3) as usize])
        .collect()
}

/// The number of these limbs times a factor, limb by limb.
fn of_limbs(limbs: &[u64], factor: &Whole) -> Whole {
    limbs
        .iter()
        .fold(Whole::zero(), |value, &limb| value.shifted_left(64).plus(&factor.times_small(limb)))
}

#[test]
fn sums_and_order() {
    let mut generator = Generator::new(1);
    for _ in 0..20_000 {
        let (a, b) = (number(&mut generator, 127), number(&mut generator, 127));
        let (great, small) = (a.max(b), a.min(b));
        assert_eq!(whole(a).plus(&whole(b)), whole(a + b));
        assert_eq!(whole(great).minus(&whole(small)), whole(great - small));
        assert_eq!(whole(a).cmp(&whole(b)), a.cmp(&b));
        assert_eq!(fixed(a) + fixed(b), fixed(a + b));
        assert_eq!(fixed(great) - fixed(small), fixed(great - small));
        assert_eq!(fixed(a).distance(fixed(b)), fixed(great - small));
        assert_eq!(fixed(a).cmp(&fixed(b)), a.cmp(&b));
    }
}

#[test]
fn products_and_quotients() {
    let mut generator = Generator::new(2);
    for _ in 0..20_000 {
        let (a, b) = (number(&mut generator, 64), number(&mut generator, 64));
        assert_eq!(whole(a).times(&whole(b)), whole(a * b));
        assert_eq!(whole(a).times_small(b as u64), whole(a * b));
        assert_eq!(fixed(a) * fixed(b), fixed(a * b));
        assert_eq!(fixed(a) * b as u64, fixed(a * b));
    }
    for _ in 0..2_000 {
        let (a, b) = (number(&mut generator, 128), number(&mut generator, 128).max(1));
        assert_eq!(whole(a).divided_by(&whole(b)), (whole(a / b), whole(a % b)));
    }
}

#[test]
fn shifts_and_lengths() {
    let mut generator = Generator::new(3);
    for _ in 0..20_000 {
        let a = number(&mut generator, 128);
        let length = 128 - a.leading_zeros();
        assert_eq!((whole(a).bit_length(), fixed(a).bit_length()), (length as usize, length));
        let by = generator.below(129 - length as u64).min(127) as u32;
        assert_eq!(whole(a).shifted_left(by as usize), whole(a << by));
        assert_eq!(fixed(a) << by, fixed(a << by));
        assert_eq!(fixed(a).halved(), fixed(a >> 1));
        assert!((fixed(a).to_f64() - a as f64).abs() <= a as f64 * 1e-12);
    }
    assert_eq!(Fixed::<4>::ZERO << 1000, Fixed::ZERO);
}

#[test]
fn powers() {
    for base in 0..=17u128 {
        for exponent in 0..=31 {
            assert_eq!(whole(base).pow(exponent), whole(base.pow(exponent)));
        }
    }
    assert_eq!(whole(2).pow(1000), Whole::power_of_two(1000));
    assert_eq!(whole(6).pow(300), whole(2).pow(300).times(&whole(3).pow(300)));
}

#[test]
fn powers_of_two_reached() {
    assert!(!Whole::zero().reaches_power_of_two(-1) && !Whole::zero().reaches_power_of_two(i128::MIN));
    for value in 1..300u128 {
        for exponent in 0..10 {
            assert_eq!(whole(value).reaches_power_of_two(exponent), 1 << exponent <= value);
        }
        assert!(whole(value).reaches_power_of_two(i128::MIN) && !whole(value).reaches_power_of_two(i128::MAX));
    }
}

/// Products long enough to be split: by the square of a sum, limb by limb, and by division.
#[test]
fn long_products() {
    let mut generator = Generator::new(4);
    for (left, right) in [(31, 33), (32, 32), (33, 64), (64, 65), (70, 200), (130, 131), (40, 300), (257, 256)] {
        let (limbs_a, limbs_b) = (limbs(&mut generator, left), limbs(&mut generator, right));
        let [a, b] = [&limbs_a, &limbs_b].map(|limbs| of_limbs(limbs, &Whole::one()));
        let product = a.times(&b);
        assert_eq!(product, b.times(&a));
        let sum = a.plus(&b);
        let squares = a.times(&a).plus(&b.times(&b));
        assert_eq!(sum.times(&sum), squares.plus(&product.shifted_left(1)));
        assert_eq!(product, of_limbs(&limbs_a, &b));
        let rest = b.minus(&Whole::one());
        assert_eq!(product.plus(&rest).divided_by(&b), (a, rest));
    }
}

/// A fixed number as a whole one, digit by digit from the top.
fn as_whole(mut value: Fixed<6>) -> Whole {
    let mut digits = Whole::zero();
    while value != Fixed::ZERO {
        let top = value.bit_length() - 1;
        value = value - (Fixed::from(1) << top);
        digits = digits.plus(&Whole::power_of_two(top as usize));
    }
    digits
}

fn wide(generator: &mut Generator, limbs: usize) -> Fixed<6> {
    (0..limbs).fold(Fixed::ZERO, |value, _| {
        let limb = [generator.limb(), 0, u64::MAX][generator.below(3) as usize];
        (value << 64) + Fixed::from(limb)
    })
}

/// Fixed numbers beyond 128 digits against whole ones.
#[test]
fn wide_fixed_numbers() {
    let mut generator = Generator::new(5);
    for round in 0..1000 {
        let (a, b) = (wide(&mut generator, round % 6), wide(&mut generator, 5 - round % 6));
        let (wide_a, wide_b) = (as_whole(a), as_whole(b));
        assert_eq!(as_whole(a + b), wide_a.plus(&wide_b));
        assert_eq!(
            as_whole(a.max(b) - a.min(b)),
            wide_a.clone().max(wide_b.clone()).minus(&wide_a.clone().min(wide_b.clone()))
        );
        assert_eq!(as_whole(a * b), wide_a.times(&wide_b));
        assert_eq!(as_whole(a * u64::MAX), wide_a.times_small(u64::MAX));
        assert_eq!(as_whole(a.halved()), wide_a.divided_by(&Whole::from(2)).0);
        let by = generator.below(385 - a.bit_length() as u64) as u32;
        assert_eq!(as_whole(a << by), wide_a.shifted_left(by as usize));
    }
}

#[test]
#[should_panic(expected = "does not fit")]
fn fixed_sum_overflows() {
    let greatest = Fixed::<1>::from(u64::MAX);
    let _ = greatest + Fixed::from(1);
}

#[test]
#[should_panic(expected = "does not fit")]
fn fixed_shift_overflows() {
    let _ = Fixed::<2>::from(2) << 127;
}

#[test]
#[should_panic(expected = "does not fit")]
fn fixed_product_overflows() {
    let half = Fixed::<2>::from(1) << 64;
    let _ = half * half;
}

#[test]
#[should_panic(expected = "negative")]
fn fixed_difference_below_zero() {
    let _ = Fixed::<2>::from(1) - Fixed::from(2);
}

#[test]
#[should_panic(expected = "negative")]
fn whole_difference_below_zero() {
    let _ = whole(1).minus(&whole(2));
}
