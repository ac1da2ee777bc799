//! Numbers in print.

/// The number with two significant digits, never fewer: 1300, 11, 1.0, 0.051.
pub fn two_digits(number: f64) -> String {
    let scientific = format!("{number:.1e}");
    let Some((_, exponent)) = scientific.split_once('e') else {
        return scientific;
    };
    let exponent: i32 = exponent.parse().expect("an exponent is a whole number");
    let rounded: f64 = scientific.parse().expect("a number is printed");
    let decimals = (1 - exponent).max(0) as usize;
    format!("{rounded:.decimals$}")
}

#[cfg(test)]
mod tests {
    use super::two_digits;

    #[test]
    fn two_digits_count() {
        for (number, printed) in [
            (1327.0, "1300"),
            (557.4, "560"),
            (98.7, "99"),
            (11.2, "11"),
            (9.49, "9.5"),
            (1.02, "1.0"),
            (0.97, "0.97"),
            (0.0508, "0.051"),
            (0.00409, "0.0041"),
            (0.000012, "0.000012"),
        ] {
            assert_eq!(two_digits(number), printed);
        }
    }

    #[test]
    fn rounding_may_reach_the_next_power_of_ten() {
        for (number, printed) in [
            (997.0, "1000"),
            (99.6, "100"),
            (9.96, "10"),
            (0.996, "1.0"),
            (0.0996, "0.10"),
        ] {
            assert_eq!(two_digits(number), printed);
        }
    }

    #[test]
    fn numbers_without_digits() {
        assert_eq!(two_digits(0.0), "0.0");
        assert_eq!(two_digits(f64::INFINITY), "inf");
    }
}
