//! The checks of joining (SCOPE 6.3), and what they leave of a pile. A block of the first scheme has 0 for its set, so that its pile is one set; of the
//! second scheme there are up to 70, and each is looked at by itself.

use super::block::{check_block, words_of};
use super::heaps::outside;
use super::{refuse, Refusal, BLOCK};

/// The words 1 to 25 of a block: those behind them tell nothing.
type Front = [u16; 25];

/// What the checks of joining leave of a pile: its blocks, which of them is the first of each piece that is joined, and w.
pub(super) struct Complete {
    blocks: Vec<Front>,
    pub first: Vec<usize>,
    pub w: usize,
}

impl Complete {
    /// Value i, from 0, of piece j, from 0.
    pub fn value(&self, j: usize, i: usize) -> u16 {
        self.blocks[self.first[j]][7 + i]
    }
}

/// What tells deals apart. In the second scheme word 5 does not: every set has its own.
fn deal_of(front: &Front) -> [u16; 6] {
    let k = if front[0] == 1988 { 0 } else { front[4] };
    [front[0], front[1], front[3], k, front[5], front[23]]
}

/// The values of a block.
fn values(front: &Front) -> &[u16] {
    &front[7..7 + front[5] as usize]
}

/// Refusals 13 to 17: the blocks of a pile.
fn fronts(pile: &[u8]) -> Result<Vec<Front>, Refusal> {
    if pile.len() % BLOCK != 0 {
        return refuse(13, 0, 0);
    }
    if pile.len() / BLOCK > 560 {
        return refuse(14, 0, 0);
    }
    let mut fronts = Vec::with_capacity(pile.len() / BLOCK);
    for (at, block) in pile.chunks_exact(BLOCK).enumerate() {
        let words = words_of(block);
        check_block(&words, at + 1)?;
        let mut front = [0; 25];
        front.copy_from_slice(&words[..25]);
        fronts.push(front);
    }
    Ok(fronts)
}

/// The blocks of one set that were met, by their places from 0: of each k the first, and of each piece all.
#[derive(Clone, Default)]
struct Met {
    first_of: Vec<(u16, usize)>,
    pieces: Vec<Vec<usize>>,
}

impl Met {
    /// The first block that cannot be right beside this one: it gives the set another k, or this piece other values.
    fn against(&self, blocks: &[Front], block: &Front) -> Option<usize> {
        let other_k = self.first_of.iter().filter(|(k, _)| *k != block[4]).map(|(_, at)| *at).min();
        let same = self.pieces.get(block[6] as usize - 1).into_iter().flatten();
        let other_values = same.copied().find(|at| values(&blocks[*at]) != values(block));
        other_k.into_iter().chain(other_values).min()
    }

    fn add(&mut self, at: usize, block: &Front) {
        if !self.first_of.iter().any(|(k, _)| *k == block[4]) {
            self.first_of.push((block[4], at));
        }
        let piece = block[6] as usize;
        if self.pieces.len() < piece {
            self.pieces.resize(piece, Vec::new());
        }
        self.pieces[piece - 1].push(at);
    }

    /// How many different pieces there are, and how many it takes.
    fn counts(&self) -> (usize, usize) {
        (self.pieces.iter().filter(|blocks| !blocks.is_empty()).count(), self.first_of.first().map_or(0, |(k, _)| *k as usize))
    }
}

/// Refusal 19: what was met of each set, those of the first scheme in the place of set 0.
fn by_set(blocks: &[Front]) -> Result<Vec<Met>, Refusal> {
    let mut sets = vec![Met::default()];
    for (at, block) in blocks.iter().enumerate() {
        let set = block[24] as usize;
        if sets.len() <= set {
            sets.resize(set + 1, Met::default());
        }
        let met = &mut sets[set];
        if let Some(other) = met.against(blocks, block) {
            return refuse(19, at + 1, other + 1);
        }
        met.add(at, block);
    }
    Ok(sets)
}

/// All checks of joining a pile into so many words.
pub(super) fn complete(pile: &[u8], room: usize) -> Result<Complete, Refusal> {
    let blocks = fronts(pile)?;
    if blocks.is_empty() {
        return refuse(20, 0, 0);
    }
    if blocks.iter().any(|block| deal_of(block) != deal_of(&blocks[0])) {
        let deals: Vec<[u16; 6]> = blocks.iter().map(deal_of).collect();
        let at = outside(&deals).expect("a block outside the largest heap, where two are unlike");
        return refuse(18, at + 1, 0);
    }
    let sets = by_set(&blocks)?;
    // no piece is above k, so as many as k are all of them; the lowest set that has them speaks
    let whole = |met: &&Met| met.counts().1 > 0 && met.counts().0 == met.counts().1;
    let Some(met) = sets.iter().find(whole) else {
        let (here, k) = sets[0].counts();
        return refuse(20, here, k);
    };
    let w = blocks[0][5] as usize;
    if room < w {
        return refuse(12, w, 0);
    }
    let first = met.pieces.iter().map(|blocks| blocks[0]).collect();
    Ok(Complete { blocks, first, w })
}
