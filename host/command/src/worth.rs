//! The worth of a stored number, as text.

use dofnihet::Stored;

/// (mantissa + 1/2) * 2^(exponent - 136) in decimal, with four significant digits.
pub fn worth(stored: Stored) -> String {
    decimal((stored.mantissa as f64 + 0.5) * 2f64.powi(stored.exponent as i32 - 136))
}

/// Four significant digits of a positive number: plain from 0.0001 up to below 1000000, else as 1.234e-15. The rounded number decides; a
/// half goes to the even digit.
fn decimal(value: f64) -> String {
    let rounded = format!("{value:.3e}");
    let (digits, power) = rounded.split_once('e').expect("scientific notation has an exponent");
    let digits = digits.replace('.', "");
    match power.parse().expect("the exponent is a whole number") {
        power @ -4..=-1 => format!("0.{}{digits}", "0".repeat((-1 - power) as usize)),
        power @ 0..=2 => format!("{}.{}", &digits[..power as usize + 1], &digits[power as usize + 1..]),
        power @ 3..=5 => format!("{digits}{}", "0".repeat(power as usize - 3)),
        i32::MIN..=-5 | 6.. => rounded,
    }
}

#[cfg(test)]
mod tests {
    use super::{decimal, worth};
    use dofnihet::Stored;

    fn worth_of(exponent: u8, mantissa: u8) -> String {
        worth(Stored { exponent, mantissa })
    }

    /// 180.5 / 256, 255.5 / 512, 255.5 / 256, 128.5 / 128, 255.5 and 128.5 · 2.
    #[test]
    fn worths() {
        assert_eq!(worth_of(128, 180), "0.7051");
        assert_eq!(worth_of(127, 255), "0.4990");
        assert_eq!(worth_of(128, 255), "0.9980");
        assert_eq!(worth_of(129, 128), "1.004");
        assert_eq!(worth_of(136, 255), "255.5");
        assert_eq!(worth_of(137, 128), "257.0");
    }

    /// The least and the greatest luminance: 246.5 / 2^69, and 255.5 · 2^48 = 71916856549572608.
    #[test]
    fn worths_at_the_limits() {
        assert_eq!(worth_of(67, 246), "4.176e-19");
        assert_eq!(worth_of(184, 255), "7.192e16");
    }

    /// Around the powers of ten that plain decimals begin and end at. 128.5 · 2^13 is 1052672, 243.5 · 2^12 is 997376, 209.5 / 2^21 is
    /// 0.0000998..., 210.5 / 2^21 is 0.0001003...
    #[test]
    fn plain_or_scientific() {
        assert_eq!(worth_of(149, 128), "1.053e6");
        assert_eq!(worth_of(148, 243), "997400");
        assert_eq!(worth_of(115, 209), "9.990e-5");
        assert_eq!(worth_of(115, 210), "0.0001004");
    }

    #[test]
    fn the_point_is_moved() {
        assert_eq!(decimal(0.00012344), "0.0001234");
        assert_eq!(decimal(0.0012346), "0.001235");
        assert_eq!(decimal(0.05), "0.05000");
        assert_eq!(decimal(0.5), "0.5000");
        assert_eq!(decimal(1.0), "1.000");
        assert_eq!(decimal(12.0), "12.00");
        assert_eq!(decimal(123.0), "123.0");
        assert_eq!(decimal(1234.0), "1234");
        assert_eq!(decimal(12346.0), "12350");
        assert_eq!(decimal(123449.0), "123400");
        assert_eq!(decimal(1234567.0), "1.235e6");
        assert_eq!(decimal(0.000012346), "1.235e-5");
    }

    #[test]
    fn the_rounded_number_decides() {
        assert_eq!(decimal(999949.0), "999900");
        assert_eq!(decimal(999950.0), "1.000e6");
        assert_eq!(decimal(0.00009999499), "9.999e-5");
        assert_eq!(decimal(0.000099996), "0.0001000");
        assert_eq!(decimal(9.9996), "10.00");
        assert_eq!(decimal(999.96), "1000");
        assert_eq!(decimal(9999.6), "10000");
    }

    /// At exponent 134 worths are odd eighths: 128.5 / 4 is 32.125, and 129.5 / 4 is 32.375.
    #[test]
    fn halves_go_to_the_even_digit() {
        assert_eq!(worth_of(134, 128), "32.12");
        assert_eq!(worth_of(134, 129), "32.38");
    }
}
