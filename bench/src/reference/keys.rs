//! Keys (SCOPE 3.1): sixteen bytes as ten words, and back; a key dealt, and joined to. A key is a `u128`, taken apart and put together by
//! arithmetic on that one number.

use super::dealt::sound;
use super::{deal, join, refuse, Deal, Refusal};

/// The most that word i, from 0, of a key's ten can be: 117 of the 128 bits stand in the nine words behind the first.
fn most(i: usize) -> u16 {
    if i == 0 { 2047 } else { 8191 }
}

/// Packing: the ten words of a key, the highest first.
pub fn pack(key: &[u8]) -> Result<[u16; 10], Refusal> {
    let Ok(key) = <[u8; 16]>::try_from(key) else {
        return refuse(10, 0, 0);
    };
    let mut left = u128::from_be_bytes(key);
    let mut words = [0; 10];
    for word in words.iter_mut().rev() {
        *word = (left % 8192) as u16;
        left /= 8192;
    }
    Ok(words)
}

/// Unpacking: the sixteen bytes of ten words into the front of `out`; how many they are.
pub fn unpack(words: &[u16], out: &mut [u8]) -> Result<usize, Refusal> {
    if words.len() != 10 {
        return refuse(23, 0, 0);
    }
    if let Some(at) = (0..10).find(|i| words[*i] > most(*i)) {
        return refuse(23, at + 1, 0);
    }
    if out.len() < 16 {
        return refuse(12, 16, 0);
    }
    let key = words.iter().fold(0u128, |key, word| key * 8192 + *word as u128);
    out[..16].copy_from_slice(&key.to_be_bytes());
    Ok(16)
}

/// Dealing a key: one holder's card into the front of `out`; the number of blocks. Of `d` the secret is not looked at.
pub fn deal_key(d: &Deal, key: &[u8], holder: usize, out: &mut [u8]) -> Result<usize, Refusal> {
    sound(d, holder)?;
    let words = pack(key)?;
    deal(&Deal { secret: words.to_vec(), ..d.clone() }, holder, out)
}

/// Joining to a key: its bytes into the front of `out`; how many they are. No secret has more than sixteen words.
pub fn join_key(pile: &[u8], out: &mut [u8]) -> Result<usize, Refusal> {
    let mut words = [0; 16];
    let w = join(pile, &mut words)?;
    unpack(&words[..w], out)
}
