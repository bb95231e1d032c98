//! Stand-in for the crate float_eq: the one form of assertion the original's own tests use.

#[doc(hidden)]
pub fn abs_all(a: &[f64], b: &[f64], tolerance: f64) {
    assert_eq!(a.len(), b.len());
    for (u, v) in a.iter().zip(b) {
        assert!((u - v).abs() <= tolerance, "{a:?} is not near {b:?}");
    }
}

#[macro_export]
macro_rules! assert_float_eq {
    ($a:expr, $b:expr, abs_all <= $tolerance:expr) => {
        $crate::abs_all($a, $b, $tolerance)
    };
}
