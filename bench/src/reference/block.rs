//! The card block (SCOPE 4): its words, its check, and whether it is as the layout has it. A block says by its mark which scheme it is of.

use super::{refuse, Refusal, BLOCK, P};

/// The 256 words of a block of the first scheme from its first seven, its values and its year, which is word 24.
pub fn block_words(head: [u16; 7], values: &[u16], year: u16) -> [u16; 256] {
    set_words(head, values, year, 0)
}

/// The same of either scheme: word 25 is the place of the set, and 0 where there is none.
pub fn set_words(head: [u16; 7], values: &[u16], year: u16, set: u16) -> [u16; 256] {
    let mut words = [0; 256];
    words[..7].copy_from_slice(&head);
    words[7..7 + values.len()].copy_from_slice(values);
    words[23] = year;
    words[24] = set;
    words[255] = check(&words);
    words
}

/// The check (SCOPE 4): 1·word 1, 2·word 2, .., 255·word 255 added, mod p.
pub fn check(words: &[u16; 256]) -> u16 {
    let sum: u64 = (1..256).map(|i| i as u64 * words[i - 1] as u64).sum();
    (sum % P) as u16
}

/// The words of a block's bytes, and back.
pub fn words_of(block: &[u8]) -> [u16; 256] {
    let mut words = [0; 256];
    for (word, bytes) in words.iter_mut().zip(block.chunks_exact(2)) {
        *word = u16::from_be_bytes([bytes[0], bytes[1]]);
    }
    words
}

pub fn bytes_of(words: &[u16; 256]) -> [u8; 512] {
    let mut bytes = [0; 512];
    for (bytes, word) in bytes.chunks_exact_mut(2).zip(words) {
        bytes.copy_from_slice(&word.to_be_bytes());
    }
    bytes
}

/// The first word from 1 to 255 that is not as SCOPE 4 has it.
pub(super) fn wrong(words: &[u16; 256]) -> Option<usize> {
    let word = |i: usize| words[i - 1];
    // of the second scheme k is the members of a set, and the set has a place
    let (most, places) = if word(1) == 1988 { (word(4), 1..=70) } else { (70, 0..=0) };
    let right = [
        word(1) == 1987 || word(1) == 1988,
        word(2) != 0,
        (1..=8).contains(&word(3)),
        (1..=8).contains(&word(4)) && word(4) >= word(3),
        (1..=most).contains(&word(5)),
        (1..=16).contains(&word(6)),
        1 <= word(7) && word(7) <= word(5),
    ];
    if let Some(at) = right.iter().position(|right| !right) {
        return Some(at + 1);
    }
    // behind the values all is 0, but for the place of a set, and for the year, which may be anything that can be read
    (8 + word(6) as usize..=255).find(|i| match i {
        24 => false,
        25 => !places.contains(&word(25)),
        _ => word(*i) != 0,
    })
}

/// Refusals 15, 16 and 17 of block a, the last by what is wrong with its layout.
fn refused(words: &[u16; 256], a: usize, wrong: impl Fn(&[u16; 256]) -> Option<usize>) -> Result<(), Refusal> {
    if let Some(dirty) = (1..=256).find(|i| words[i - 1] > 32748) {
        return refuse(15, a, dirty);
    }
    if check(words) != words[255] {
        return refuse(16, a, 0);
    }
    match wrong(words) {
        Some(at) => refuse(17, a, at),
        None => Ok(()),
    }
}

/// Refusals 15, 16 and 17 of block a of a pile.
pub(super) fn check_block(words: &[u16; 256], a: usize) -> Result<(), Refusal> {
    refused(words, a, wrong)
}

/// The same of a block that is added or handed in, where the mark of the first scheme is the only one.
pub(super) fn check_first(words: &[u16; 256], a: usize) -> Result<(), Refusal> {
    refused(words, a, |words| if words[0] == 1988 { Some(1) } else { wrong(words) })
}

/// Opening the first block: its words 1 to 7.
pub fn open(pile: &[u8]) -> Result<[u16; 7], Refusal> {
    if pile.len() < BLOCK {
        return refuse(13, 0, 0);
    }
    let words = words_of(&pile[..BLOCK]);
    check_block(&words, 1)?;
    let mut head = [0; 7];
    head.copy_from_slice(&words[..7]);
    Ok(head)
}
