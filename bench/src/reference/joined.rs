//! From the pieces of a pile to its secret, in two ways: Lagrange's formula, and differences alone.

use super::pile::complete;
use super::{Refusal, P};

/// A power of a number, mod p.
pub(super) fn power(base: u64, mut exponent: u64) -> u64 {
    let (mut base, mut result) = (base % P, 1);
    while exponent > 0 {
        if exponent & 1 == 1 {
            result = result * base % P;
        }
        base = base * base % P;
        exponent >>= 1;
    }
    result
}

/// What each piece 1 to k weighs, where the polynomial through them is taken at 0: Lagrange, inverses by Fermat.
pub fn weights(k: usize) -> Vec<u64> {
    (1..=k as u64)
        .map(|j| {
            let (mut above, mut below) = (1, 1);
            for i in (1..=k as u64).filter(|i| *i != j) {
                above = above * i % P;
                below = below * (i + P - j) % P;
            }
            above * power(below, P - 2) % P
        })
        .collect()
}

/// Joining: the secret into the front of `out`; the number of its words.
pub fn join(pile: &[u8], out: &mut [u16]) -> Result<usize, Refusal> {
    let found = complete(pile, out.len())?;
    let weights = weights(found.first.len());
    for i in 0..found.w {
        let sum: u64 = weights.iter().enumerate().map(|(j, weight)| weight * found.value(j, i) as u64).sum();
        out[i] = (sum % P) as u16;
    }
    Ok(found.w)
}

/// A word from its pieces by subtraction. They are the first row; under it stands the row of the differences of neighbours, and so on down to a
/// row of one number. The first numbers of all rows are added, with a plus and a minus in turn.
pub fn by_differences(pieces: &[u16]) -> u16 {
    let mut row: Vec<i64> = pieces.iter().map(|piece| *piece as i64).collect();
    let (mut sum, mut sign) = (0, 1);
    while !row.is_empty() {
        sum += sign * row[0];
        sign = -sign;
        row = row.windows(2).map(|pair| (pair[1] - pair[0]).rem_euclid(P as i64)).collect();
    }
    sum.rem_euclid(P as i64) as u16
}

/// Joining by differences: the same checks, and each word from the differences of its pieces.
pub fn join_by_differences(pile: &[u8], out: &mut [u16]) -> Result<usize, Refusal> {
    let found = complete(pile, out.len())?;
    for i in 0..found.w {
        let pieces: Vec<u16> = (0..found.first.len()).map(|j| found.value(j, i)).collect();
        out[i] = by_differences(&pieces);
    }
    Ok(found.w)
}
