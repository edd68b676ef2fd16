//! Dealing (SCOPE 3 and 4): pieces, and one holder's card.

use super::{block_words, bytes_of, held, plan, refuse, Refusal, BLOCK, P};

/// Piece j of a word (SCOPE 3): its polynomial at j, mod p.
pub fn piece(word: u16, coefficients: &[u16], j: usize) -> u16 {
    let mut value = 0;
    for coefficient in coefficients.iter().rev() {
        value = (value * j as u64 + *coefficient as u64) % P;
    }
    ((value * j as u64 + word as u64) % P) as u16
}

/// The arguments of a deal, but for the holder and the output.
#[derive(Clone, Debug)]
pub struct Deal {
    pub people: usize,
    pub required: Vec<u16>,
    pub forbidden: Vec<u16>,
    pub number: usize,
    pub year: usize,
    pub secret: Vec<u16>,
    pub random: Vec<u16>,
}

/// Refusals 1 to 6, 8, 9, 22 and 25: policy, deal number, year and holder are good. The group of each piece.
pub(super) fn sound(d: &Deal, holder: usize) -> Result<Vec<u16>, Refusal> {
    let groups = plan(d.people, &d.required, &d.forbidden)?;
    if d.number == 0 || d.number > 32748 {
        return refuse(8, 0, 0);
    }
    if d.year > 32748 {
        return refuse(25, 0, 0);
    }
    if holder == 0 || holder > d.people {
        return refuse(9, 0, 0);
    }
    Ok(groups)
}

/// Refusals 10 and 11, where each word of the secret takes so many coefficients.
pub(super) fn sound_words(d: &Deal, coefficients: usize) -> Result<(), Refusal> {
    let w = d.secret.len();
    if w == 0 || w > 16 {
        return refuse(10, 0, 0);
    }
    if let Some(at) = d.secret.iter().position(|word| *word > 32748) {
        return refuse(10, at + 1, 0);
    }
    if d.random.len() != w * coefficients {
        return refuse(11, 0, 0);
    }
    match d.random.iter().position(|word| *word > 32748) {
        Some(at) => refuse(11, at + 1, 0),
        None => Ok(()),
    }
}

/// The values of piece j, in front; a word's coefficients stand behind those of the word before it.
pub(super) fn values(secret: &[u16], random: &[u16], j: usize) -> [u16; 16] {
    let q = random.len() / secret.len();
    let mut values = [0; 16];
    for i in 0..secret.len() {
        values[i] = piece(secret[i], &random[i * q..(i + 1) * q], j);
    }
    values
}

/// Dealing: one holder's card into the front of `out`; the number of blocks.
pub fn deal(d: &Deal, holder: usize, out: &mut [u8]) -> Result<usize, Refusal> {
    let groups = sound(d, holder)?;
    let (k, w) = (groups.len(), d.secret.len());
    sound_words(d, k - 1)?;
    let pieces = held(&groups, holder);
    if out.len() < BLOCK * pieces.len() {
        return refuse(12, pieces.len(), 0);
    }
    for (block, j) in out.chunks_exact_mut(BLOCK).zip(&pieces) {
        let head = [1987, d.number as u16, holder as u16, d.people as u16, k as u16, w as u16, *j as u16];
        block.copy_from_slice(&bytes_of(&block_words(head, &values(&d.secret, &d.random, *j)[..w], d.year as u16)));
    }
    Ok(pieces.len())
}
