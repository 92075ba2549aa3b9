//! Plain interval arithmetic: a range from the ranges of the operands alone, its low end rounded down and its high end up.
use crate::rows::{floor_quotient, unit_root, Range, N};

pub fn add(x: Range, y: Range) -> Range {
    Range { low: x.low + y.low, high: x.high + y.high }
}

pub fn subtract(x: Range, y: Range) -> Range {
    Range { low: x.low - y.high, high: x.high - y.low }
}

/// The least and the greatest of the four products of the ends.
pub fn multiply(x: Range, y: Range) -> Range {
    let (a, b) = (x.low * y.low, x.low * y.high);
    let (c, d) = (x.high * y.low, x.high * y.high);
    Range { low: a.min(b).min(c.min(d)) >> 12, high: (a.max(b).max(c.max(d)) + 4095) >> 12 }
}

/// Of a range that does not hold 0.
pub fn reciprocal(x: Range) -> Range {
    Range { low: floor_quotient(N, x.high), high: -floor_quotient(-N, x.low) }
}

/// Of a range that does not start below 0. An exact root is rounded down itself, so both ends are.
pub fn root(x: Range) -> Range {
    Range { low: unit_root(x.low) as i64, high: unit_root(x.high) as i64 }
}

pub fn overlap(x: Range, y: Range) -> Range {
    Range { low: x.low.max(y.low), high: x.high.min(y.high) }
}
