//! IEEE 754-2019's maximumNumber and minimumNumber, for numbers and quiet NaN: a NaN yields to the
//! other, and −0 lies below +0. The standard library may return either of two zeros.

pub fn maximum_number(a: f64, b: f64) -> f64 {
    match (a.is_nan(), b.is_nan()) {
        (true, _) => b,
        (_, true) => a,
        _ if a.total_cmp(&b).is_gt() => a,
        _ => b,
    }
}

pub fn minimum_number(a: f64, b: f64) -> f64 {
    match (a.is_nan(), b.is_nan()) {
        (true, _) => b,
        (_, true) => a,
        _ if a.total_cmp(&b).is_lt() => a,
        _ => b,
    }
}

/// −0 and +0, in either order.
pub fn unlike_zeros(a: f64, b: f64) -> bool {
    a == 0.0 && b == 0.0 && a.to_bits() != b.to_bits()
}

#[cfg(test)]
mod tests {
    use super::*;

    #[test]
    fn zeros_and_nan() {
        for (a, b) in [(-0.0, 0.0), (0.0, -0.0)] {
            assert!(unlike_zeros(a, b));
            assert_eq!(maximum_number(a, b).to_bits(), 0);
            assert_eq!(minimum_number(a, b).to_bits(), 1 << 63);
        }
        assert!(!unlike_zeros(-0.0, -0.0));
        assert_eq!(maximum_number(f64::NAN, -0.0).to_bits(), 1 << 63);
        assert_eq!(minimum_number(1.0, f64::NAN), 1.0);
        assert!(maximum_number(f64::NAN, f64::NAN).is_nan());
        assert_eq!(maximum_number(-2.0, -1.0), -1.0);
        assert_eq!(minimum_number(-2.0, -1.0), -2.0);
    }
}
