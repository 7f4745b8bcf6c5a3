//! RULES, "Value of a price".

/// The whole number nearest to `dividend / divisor`, a half upwards.
pub fn rounded(dividend: u64, divisor: u64) -> u64 {
    (2 * dividend + divisor) / (2 * divisor)
}

/// c = W × 100 / R, rounded.
pub fn coefficient(tick_value: u64, tick: u64) -> u64 {
    rounded(tick_value * 100, tick)
}

/// V(p) = p × c / 100,000, rounded, in kopecks.
pub fn value(price: u64, coefficient: u64) -> i64 {
    rounded(price * coefficient, 100_000) as i64
}

#[cfg(test)]
mod tests {
    use super::*;

    #[test]
    fn rounding_goes_to_the_nearest_and_a_half_upwards() {
        for divisor in 1..=12 {
            for dividend in 0..=60 {
                let r = rounded(dividend, divisor);
                // r - 1/2 <= dividend / divisor < r + 1/2, times 2 × divisor.
                assert!(2 * r * divisor <= 2 * dividend + divisor);
                assert!(2 * dividend + divisor < 2 * (r + 1) * divisor);
            }
        }
    }

    #[test]
    fn coefficients_of_the_rules() {
        assert_eq!(coefficient(100_000, 100), 100_000);
        assert_eq!(coefficient(100_000, 3), 3_333_333);
        assert_eq!(coefficient(50_000, 100), 50_000);
        assert_eq!(coefficient(923_456, 1), 92_345_600);
    }

    #[test]
    fn values_of_the_rules() {
        assert_eq!(value(317, 92_345_600), 292_736);
        assert_eq!(value(1_000_000, 3_333_333), 33_333_330);
        assert_eq!(value(1, 50_000), 1);
        assert_eq!(value(2, 50_000), 1);
    }

    #[test]
    fn each_price_is_valued_by_itself() {
        // A rounded difference of the prices 2 and 1 would say 1.
        assert_eq!(value(2, 50_000) - value(1, 50_000), 0);
    }

    #[test]
    fn the_coefficient_is_rounded_before_it_is_used() {
        // An unrounded 100,000 × 100 / 3 would give 33,333,333.
        assert_ne!(value(1_000_000, coefficient(100_000, 3)), 33_333_333);
    }

    #[test]
    fn the_largest_value_within_the_bounds() {
        assert_eq!(value(1_000_000, 200_000_000), 2_000_000_000);
    }
}
