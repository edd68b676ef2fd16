//! Piles with dirty words, for salvage: blocks that lost one word and nothing else, blocks that lost more, and blocks that were not good before.
use crate::inputs::with_word;
use crate::numbers::Numbers;
use crate::reference::{words_of, BLOCK};

/// What a slot holds that could not be read.
fn slot(n: &mut Numbers) -> u16 {
    match n.below(4) {
        0 => 32749 + n.below(32787) as u16,
        1 => [32749, 32768, u16::MAX][n.below(3)],
        _ => 32767,
    }
}

/// A word of a block, by its kind: the check, one of the seven in front, a value, one of those that are 0, the last before the check, the year, any.
fn word(n: &mut Numbers, block: &[u8]) -> usize {
    let w = (words_of(block)[5] as usize).clamp(1, 16);
    match n.below(9) {
        0 => 256,
        1 | 2 => 1 + n.below(7),
        3 | 4 => 8 + n.below(w),
        5 => 8 + w + n.below(248 - w),
        6 => 255,
        7 => 24,
        _ => 1 + n.below(256),
    }
}

/// What became of a block.
#[derive(Clone, Copy, PartialEq)]
pub enum Fate {
    /// It is as it was.
    Whole,
    /// It lost one word.
    Lost,
    /// Something else.
    Other,
}

/// Scratches a true block.
pub fn scratch(n: &mut Numbers, block: &mut [u8]) -> Fate {
    match n.below(8) {
        0 | 1 => Fate::Whole,
        2..=4 => {
            let at = word(n, block);
            with_word(block, at, slot(n), false);
            Fate::Lost
        }
        5 => {
            // two words, or three
            for _ in 0..2 + n.below(2) {
                let at = word(n, block);
                with_word(block, at, slot(n), false);
            }
            Fate::Other
        }
        6 => {
            // a word that was read, but wrong, with or without a right check; and one that was not read
            let (changed, dirty) = (word(n, block), word(n, block));
            let new = if n.once_in(2) { n.below(80) as u16 } else { n.word() };
            with_word(block, changed, new, n.once_in(2));
            with_word(block, dirty, slot(n), false);
            Fate::Other
        }
        _ => {
            // no block of ours at all, with no dirty word, one or two
            for pair in block.chunks_exact_mut(2) {
                pair.copy_from_slice(&n.word().to_be_bytes());
            }
            for _ in 0..n.below(3) {
                with_word(block, 1 + n.below(256), slot(n), false);
            }
            Fate::Other
        }
    }
}

/// A pile made of these blocks, the same one scratched, and what became of each block; every other pile only lost words, one of a block.
pub fn pile(n: &mut Numbers, blocks: &[Vec<u8>]) -> (Vec<u8>, Vec<u8>, Vec<Fate>) {
    let most = if n.once_in(100) { 555 + n.below(12) } else { n.below(9) };
    let good: Vec<u8> = (0..most).flat_map(|_| blocks[n.below(blocks.len())].clone()).collect();
    let mut lost = good.clone();
    let gentle = n.once_in(2);
    let mut fates = Vec::with_capacity(most);
    for block in lost.chunks_exact_mut(BLOCK) {
        let old = block.to_vec();
        let mut fate = scratch(n, block);
        if gentle && fate == Fate::Other {
            block.copy_from_slice(&old);
            fate = Fate::Whole;
        }
        fates.push(fate);
    }
    if n.once_in(20) {
        let torn = 1 + n.below(BLOCK - 1);
        lost.extend((0..torn).map(|_| n.next() as u8));
    }
    (good, lost, fates)
}

/// How many numbers the list has: as many as are needed, one or two fewer or more, or any.
pub fn numbers(n: &mut Numbers, blocks: usize) -> usize {
    match n.below(8) {
        0 => (2 * blocks).saturating_sub(1),
        1 => (2 * blocks).saturating_sub(2),
        2 => 2 * blocks + 1,
        3 => n.below(2 * blocks + 6),
        4 => 1120,
        _ => 2 * blocks,
    }
}
