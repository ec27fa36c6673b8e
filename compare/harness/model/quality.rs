//! The quality record: sum of absolute depunctured values, and percentage.

use crate::stores::Percent;

/// -128 has weight 128.
pub fn sum(depunctured: &[i8]) -> i32 {
    depunctured.iter().map(|value| i32::from(value.unsigned_abs())).sum()
}

/// Metric divided by sum, times 100.0, each rounded once; 0.0 if the sum is 0.
pub fn percent(metric: i32, sum: i32) -> Percent {
    if sum == 0 {
        return Percent(0.0);
    }
    let ratio: f64 = f64::from(metric) / f64::from(sum);
    Percent(ratio * 100.0)
}
