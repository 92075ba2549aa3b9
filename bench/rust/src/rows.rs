//! Rows: affine forms with square terms, in whole numbers of 1/4096.
use crate::sheet::{INPUTS_LIMIT, STEPS_LIMIT};

pub const ROWS_LIMIT: usize = INPUTS_LIMIT + STEPS_LIMIT;
/// Each row owns a symbol.
const SYMBOLS: usize = ROWS_LIMIT;
const PAIRS: usize = INPUTS_LIMIT * (INPUTS_LIMIT + 1) / 2;
const SPAN_LIMIT: u64 = 1 << 30;
pub const N: i64 = 4096 * 4096;

/// The pairs of inputs: of the first with each, of the second with each from itself on, and so on.
const ORDER: [(usize, usize); PAIRS] = {
    let mut order = [(0, 0); PAIRS];
    let (mut i, mut j) = (0, 0);
    let mut k = 0;
    while k < PAIRS {
        order[k] = (i, j);
        (i, j) = if j + 1 < INPUTS_LIMIT { (i, j + 1) } else { (i + 1, i + 1) };
        k += 1;
    }
    order
};

/// Where the pairs (i,i) stand in this order.
const SQUARES: [usize; INPUTS_LIMIT] = {
    let mut squares = [0; INPUTS_LIMIT];
    let mut i = 1;
    while i < INPUTS_LIMIT {
        squares[i] = squares[i - 1] + INPUTS_LIMIT - (i - 1);
        i += 1;
    }
    squares
};

#[derive(Clone, Copy, PartialEq)]
pub struct Row {
    pub centre: i64,
    pub linear: [i64; SYMBOLS],
    pub pair: [i64; PAIRS],
}

#[derive(Clone, Copy)]
pub struct Range {
    pub low: i64,
    pub high: i64,
}

/// A row and its own range, or the number of a refusal.
pub type Answer = Result<(Row, Range), u64>;

fn absolutes(numbers: &[i64]) -> u64 {
    numbers.iter().map(|v| v.unsigned_abs()).sum()
}

pub fn floor_quotient(a: i64, d: i64) -> i64 {
    let q = a / d;
    if a % d != 0 && (a % d < 0) != (d < 0) { q - 1 } else { q }
}

impl Row {
    pub const ZERO: Row = Row { centre: 0, linear: [0; SYMBOLS], pair: [0; PAIRS] };

    /// The sum of all absolutes but the centre's.
    fn radius(&self) -> u64 {
        absolutes(&self.linear) + absolutes(&self.pair)
    }

    /// The row and its own range, or 6. No operation makes a number so large that a sum here could wrap.
    fn checked(self) -> Answer {
        let radius = self.radius();
        if self.centre.unsigned_abs() + radius <= SPAN_LIMIT { Ok((self, self.range(radius as i64))) } else { Err(6) }
    }

    /// The range of the form of a row of this radius. A square is never negative, so a pair (i,i) reaches to one side only.
    fn range(&self, radius: i64) -> Range {
        let mut range = Range { low: self.centre - radius, high: self.centre + radius };
        for p in SQUARES.map(|k| self.pair[k]) {
            range.low += p.max(0);
            range.high += p.min(0);
        }
        range
    }
}

impl Range {
    pub const ZERO: Range = Range { low: 0, high: 0 };

    /// How far the range is from 0, or 7 where it holds 0.
    fn distance(self) -> Result<u64, u64> {
        if self.low > 0 {
            Ok(self.low.unsigned_abs())
        } else if self.high < 0 {
            Ok(self.high.unsigned_abs())
        } else {
            Err(7)
        }
    }
}

pub fn constant(value: i64) -> Answer {
    Row { centre: value, ..Row::ZERO }.checked()
}

/// The own range of an input is its ends.
pub fn input(own: usize, low: i64, high: i64) -> Answer {
    let mut row = Row { centre: (low + high) >> 1, ..Row::ZERO };
    row.linear[own] = high - row.centre;
    let (row, _) = row.checked()?;
    Ok((row, Range { low, high }))
}

pub fn add(x: &Row, y: &Row) -> Answer {
    let mut row = *x;
    row.centre += y.centre;
    for (v, w) in row.linear.iter_mut().zip(&y.linear) {
        *v += w;
    }
    for (v, w) in row.pair.iter_mut().zip(&y.pair) {
        *v += w;
    }
    row.checked()
}

pub fn subtract(x: &Row, y: &Row) -> Answer {
    let mut row = *x;
    row.centre -= y.centre;
    for (v, w) in row.linear.iter_mut().zip(&y.linear) {
        *v -= w;
    }
    for (v, w) in row.pair.iter_mut().zip(&y.pair) {
        *v -= w;
    }
    row.checked()
}

fn linear_total(x: &Row, y: &Row, i: usize) -> i64 {
    x.centre * y.linear[i] + y.centre * x.linear[i]
}

/// The products of linear coefficients that meet in a pair.
fn meeting(a: &[i64; SYMBOLS], b: &[i64; SYMBOLS], i: usize, j: usize) -> i64 {
    if i == j { a[i] * b[i] } else { a[i] * b[j] + a[j] * b[i] }
}

fn pair_total(x: &Row, y: &Row, k: usize, i: usize, j: usize) -> i64 {
    x.centre * y.pair[k] + y.centre * x.pair[k] + meeting(&x.linear, &y.linear, i, j)
}

fn dropped(x: &Row, y: &Row, squares: usize) -> u64 {
    x.radius() * y.radius() - absolutes(&x.linear[..squares]) * absolutes(&y.linear[..squares])
}

/// The nearest whole number to a total over 4096, exact halves upward, and what it leaves, without its sign.
fn divided(t: i64) -> (i64, u64) {
    let moved = t + 2048;
    (moved >> 12, (moved & 4095).abs_diff(2048))
}

pub fn multiply(x: &Row, y: &Row, squares: usize, own: usize) -> Answer {
    let mut row = Row::ZERO;
    let mut remainders;
    (row.centre, remainders) = divided(x.centre * y.centre);
    for i in 0..SYMBOLS {
        let (q, left) = divided(linear_total(x, y, i));
        row.linear[i] = q;
        remainders += left;
    }
    for (k, &(i, j)) in ORDER.iter().enumerate() {
        if j < squares {
            let (q, left) = divided(pair_total(x, y, k, i, j));
            row.pair[k] = q;
            remainders += left;
        }
    }
    row.linear[own] = (dropped(x, y, squares) + remainders).div_ceil(4096) as i64;
    row.checked()
}

fn candidate(x: &Row, squares: usize) -> Row {
    let c = x.centre;
    let mut z = Row { centre: floor_quotient(N, c), ..Row::ZERO };
    for i in 0..SYMBOLS {
        z.linear[i] = floor_quotient(-N * x.linear[i], c * c);
    }
    for (k, &(i, j)) in ORDER.iter().enumerate() {
        if j < squares {
            let met = meeting(&z.linear, &x.linear, i, j);
            z.pair[k] = floor_quotient(-N * x.pair[k], c * c) + floor_quotient(-met, c);
        }
    }
    z
}

fn error_bound(x: &Row, z: &Row, squares: usize) -> u64 {
    let mut bound = (x.centre * z.centre - N).unsigned_abs() + dropped(x, z, squares);
    for i in 0..SYMBOLS {
        bound += linear_total(x, z, i).unsigned_abs();
    }
    for (k, &(i, j)) in ORDER.iter().enumerate() {
        if j < squares {
            bound += pair_total(x, z, k, i, j).unsigned_abs();
        }
    }
    bound
}

/// The reciprocal of a row of this own range.
pub fn reciprocal(x: &Row, range: Range, squares: usize, own: usize) -> Answer {
    let distance = range.distance()?;
    let (mut row, _) = candidate(x, squares).checked()?;
    row.linear[own] = error_bound(x, &row, squares).div_ceil(distance) as i64;
    row.checked()
}

/// The whole-number root of 4096 times a value that is not negative, rounded down.
pub fn unit_root(value: i64) -> u64 {
    (4096 * value.unsigned_abs()).isqrt()
}

fn root_candidate(x: &Row) -> Row {
    let z = unit_root(x.centre) as i64;
    let slope = |v| floor_quotient(2048 * v, z);
    Row { centre: z, linear: x.linear.map(slope), pair: x.pair.map(slope) }
}

/// A bound of 4096 times a row less the square of its root's candidate.
fn square_bound(x: &Row, z: &Row, squares: usize) -> u64 {
    let mut bound = (4096 * x.centre - z.centre * z.centre).unsigned_abs() + dropped(z, z, squares);
    for i in 0..SYMBOLS {
        bound += (4096 * x.linear[i] - linear_total(z, z, i)).unsigned_abs();
    }
    for (k, &(i, j)) in ORDER.iter().enumerate() {
        if j < squares {
            bound += (4096 * x.pair[k] - pair_total(z, z, k, i, j)).unsigned_abs();
        }
    }
    bound
}

/// The root of a row of this own range, or 12 where the range or the candidate's is too low.
pub fn root(x: &Row, range: Range, squares: usize, own: usize) -> Answer {
    if range.low < 1 {
        return Err(12);
    }
    let (mut row, Range { low, .. }) = root_candidate(x).checked()?;
    if low < 0 {
        return Err(12);
    }
    row.linear[own] = square_bound(x, &row, squares).div_ceil(unit_root(range.low)) as i64 + 1;
    row.checked()
}
