//! Doubles next to others, and halves: k / 65536 for an odd k, which lies in the middle between two whole numbers of 1 / 32768.
use crate::random::Random;

/// A double above 0, between the one below it and the one above it.
pub fn beside(x: f64) -> [f64; 3] {
    let bits = x.to_bits();
    [bits - 1, bits, bits + 1].map(f64::from_bits)
}

/// A number of 1 / 65536, between the double below it and the double above it.
pub fn around(k: u64) -> [f64; 3] {
    beside(k as f64 / 65536.0)
}

/// A half, one of the four least or any, or a double next to it.
pub fn near(random: &mut Random) -> f64 {
    let most = [4, 32768][random.below(2) as usize];
    let list = around(2 * random.below(most) + 1);
    list[[0, 1, 1, 2][random.below(4) as usize]]
}
