//! Adding two blocks (SCOPE 4.1): into one of a new deal number and year, the values one by one.

use super::block::check_first;
use super::{block_words, bytes_of, refuse, words_of, Refusal, BLOCK, P};

/// The words of a block that is lent alone, as block a of the two: refusals 13, 15, 16 and 17.
fn lent(block: &[u8], a: usize) -> Result<[u16; 256], Refusal> {
    if block.len() != BLOCK {
        return refuse(13, 0, 0);
    }
    let words = words_of(block);
    check_first(&words, a)?;
    Ok(words)
}

/// Adding: the sum into the front of `out`; how many blocks it is.
pub fn add(one: &[u8], two: &[u8], number: usize, year: usize, out: &mut [u8]) -> Result<usize, Refusal> {
    let one = lent(one, 1)?;
    let two = lent(two, 2)?;
    if let Some(i) = (3..=7).find(|i| one[i - 1] != two[i - 1]) {
        return refuse(24, i, 0);
    }
    if !(1..=32748).contains(&number) {
        return refuse(8, 0, 0);
    }
    if year > 32748 {
        return refuse(25, 0, 0);
    }
    // a number may come again in another year
    let old = [&one, &two].map(|words| (words[1] as usize, words[23] as usize));
    if old.contains(&(number, year)) {
        return refuse(8, 0, 0);
    }
    if out.len() < BLOCK {
        return refuse(12, 1, 0);
    }
    let w = one[5] as usize;
    let sum = |i: usize| ((one[7 + i] as u64 + two[7 + i] as u64) % P) as u16;
    let values: Vec<u16> = (0..w).map(sum).collect();
    let head = [1987, number as u16, one[2], one[3], one[4], one[5], one[6]];
    out[..BLOCK].copy_from_slice(&bytes_of(&block_words(head, &values, year as u16)));
    Ok(1)
}
