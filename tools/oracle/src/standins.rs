//! The stand-ins of document 01, sine and cosine with request 5's change, written from their texts.

/// 2^n: exact from -1074 to 1023, 0 below, infinity above.
pub fn pow2(n: i64) -> f64 {
    if n > 1023 {
        f64::INFINITY
    } else if n >= -1022 {
        f64::from_bits(((n + 1023) as u64) << 52)
    } else if n >= -1074 {
        f64::from_bits(1 << (n + 1074))
    } else {
        0.0
    }
}

/// The floor of log2 |x|, subnormals included; 0 for zeros, infinities and NaN.
pub fn floor_log2(x: f64) -> i64 {
    if x == 0.0 || !x.is_finite() {
        return 0;
    }
    let bits = x.abs().to_bits();
    let field = (bits >> 52) as i64;
    if field > 0 {
        field - 1023
    } else {
        63 - i64::from(bits.leading_zeros()) - 1074
    }
}

const H: f64 = std::f64::consts::FRAC_PI_2;

/// Request 5's L: the double nearest to pi/2 - H.
const L: f64 = f64::from_bits(0x3C91_A626_3314_5C07);

fn factorial(n: u64) -> u64 {
    (1..=n).product()
}

/// c0 - y (c1 - y (c2 ...)), c being 1 / factorial, rounded once.
fn series(y: f64, first: u64, last: u64) -> f64 {
    let c = 1.0 / factorial(first) as f64;
    if first == last {
        c
    } else {
        c - y * series(y, first + 2, last)
    }
}

fn s(b: f64) -> f64 {
    b * series(b * b, 1, 15)
}

fn c(b: f64) -> f64 {
    series(b * b, 0, 16)
}

/// pi/2 - a, as request 5 has it.
fn complement(a: f64) -> f64 {
    (H - a) + L
}

pub fn sine(a: f64) -> f64 {
    if a <= H / 2.0 {
        s(a)
    } else {
        c(complement(a))
    }
}

pub fn cosine(a: f64) -> f64 {
    if a <= H / 2.0 {
        c(a)
    } else {
        s(complement(a))
    }
}

/// The calls of the original, under names of their own.
pub trait StandIns {
    fn stand_in_cos(self) -> f64;
    fn stand_in_sin(self) -> f64;
    fn stand_in_powi(self, n: i32) -> f64;
    fn stand_in_log2(self) -> f64;
}

impl StandIns for f64 {
    fn stand_in_cos(self) -> f64 {
        cosine(self)
    }
    fn stand_in_sin(self) -> f64 {
        sine(self)
    }
    fn stand_in_powi(self, n: i32) -> f64 {
        assert!(self == 2.0);
        pow2(i64::from(n))
    }
    // its floor is what the original takes
    fn stand_in_log2(self) -> f64 {
        floor_log2(self) as f64
    }
}
