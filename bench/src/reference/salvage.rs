//! Salvage (SCOPE 5.1): the one dirty word of a block, found again by the check.

use super::block::wrong;
use super::joined::power;
use super::{bytes_of, check, refuse, words_of, Refusal, BLOCK, P};

/// The value for word i, from 1, with which the check of a block comes out; what stands there now does not count. It is the only one of 0 to
/// 32748, since i is no multiple of p and has an inverse (Fermat); word 256 is the check itself.
pub fn value_for(words: &[u16; 256], i: usize) -> u16 {
    let mut rest = *words;
    rest[i - 1] = 0;
    let sum = check(&rest) as u64;
    if i == 256 {
        return sum as u16;
    }
    ((words[255] as u64 + P - sum) * power(i as u64, P - 2) % P) as u16
}

/// A block as salvage leaves it.
fn mended(words: [u16; 256]) -> [u16; 256] {
    let dirty: Vec<usize> = (1..=256).filter(|i| words[i - 1] > 32748).collect();
    let [i] = dirty[..] else {
        return words;
    };
    let mut new = words;
    new[i - 1] = value_for(&words, i);
    if wrong(&new).is_some() {
        return words;
    }
    new
}

/// Salvage: the pile is mended where it stands; block and word of each word that is not what it was go to the front of `list`, two numbers for
/// each; how many words they are.
pub fn salvage(pile: &mut [u8], list: &mut [u16]) -> Result<usize, Refusal> {
    if pile.len() % BLOCK != 0 {
        return refuse(13, 0, 0);
    }
    let blocks = pile.len() / BLOCK;
    if blocks > 560 {
        return refuse(14, 0, 0);
    }
    if list.len() / 2 < blocks {
        return refuse(12, blocks, 0);
    }
    let mut places = list.chunks_exact_mut(2);
    let mut count = 0;
    for (at, block) in pile.chunks_exact_mut(BLOCK).enumerate() {
        let before = words_of(block);
        let after = mended(before);
        for i in (1..=256).filter(|i| before[i - 1] != after[i - 1]) {
            places.next().unwrap().copy_from_slice(&[at as u16 + 1, i as u16]);
            count += 1;
        }
        block.copy_from_slice(&bytes_of(&after));
    }
    Ok(count)
}
