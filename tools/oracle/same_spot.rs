//! The same-spot distance of the call that is answered. In the second build the original's `evaluate` compares with it in place of its constant.

use std::sync::atomic::{AtomicU64, Ordering};

static PATTERN: AtomicU64 = AtomicU64::new(f64::EPSILON.to_bits());

pub fn same_spot() -> f64 {
    f64::from_bits(PATTERN.load(Ordering::Relaxed))
}

pub fn set(distance: f64) {
    PATTERN.store(distance.to_bits(), Ordering::Relaxed);
}
