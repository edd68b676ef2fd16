//! A desk for two clients (SCOPE 5.2): its whole state, and what each call answers and leaves there, whatever was there before.

use super::block::check_first;
use super::{refuse, weights, words_of, Refusal, BLOCK, P};

/// The state as it is lent: 70 slots of a mark and 16 values, and the five words of each client.
#[repr(C)]
#[derive(Clone, Debug, PartialEq)]
pub struct Desk {
    pub slots: [[u16; 17]; 70],
    pub words: [[usize; 5]; 2],
}

/// The words of a block that a client opens with, and the least and the most of each in a true block.
pub const OPENING: [(usize, usize, usize); 5] = [(2, 1, 32748), (4, 1, 8), (5, 1, 70), (6, 1, 16), (24, 0, 32748)];

/// The first of five such words that no true block has.
pub(super) fn bad_word(words: &[usize; 5]) -> Option<usize> {
    let bad = |at: &usize| words[*at] < OPENING[*at].1 || words[*at] > OPENING[*at].2;
    (0..5).find(bad).map(|at| OPENING[at].0)
}

/// The words of a block that is handed in, where it is whole and true and has these five: refusals 13, 15 to 18.
pub(super) fn of_deal(block: &[u8], opened: &[usize; 5]) -> Result<[u16; 256], Refusal> {
    if block.len() != BLOCK {
        return refuse(13, 0, 0);
    }
    let words = words_of(block);
    check_first(&words, 1)?;
    if (0..5).any(|at| words[OPENING[at].0 - 1] as usize != opened[at]) {
        return refuse(18, 1, 0);
    }
    Ok(words)
}

/// A client's pieces: which client it is, from 0, k and w.
#[derive(Clone, Copy)]
struct Region {
    at: usize,
    k: usize,
    w: usize,
}

impl Region {
    /// The slot of piece j.
    fn slot(&self, j: usize) -> usize {
        if self.at == 0 { j - 1 } else { 70 - j }
    }
}

impl Desk {
    pub fn fresh() -> Desk {
        Desk { slots: [[0; 17]; 70], words: [[0; 5]; 2] }
    }

    pub fn is_open(&self, client: usize) -> bool {
        bad_word(&self.words[client - 1]).is_none()
    }

    /// The slots that a client has.
    fn reserved(&self, client: usize) -> usize {
        if self.is_open(client) { self.words[client - 1][2] } else { 0 }
    }

    /// The values that are kept of piece j of an open client: the slot is marked, and each value could be read.
    pub fn kept(&self, client: usize, j: usize) -> Option<&[u16]> {
        let region = self.region(client).expect("an open client");
        let slot = &self.slots[region.slot(j)];
        let values = &slot[1..=region.w];
        (slot[0] != 0 && values.iter().all(|value| *value <= 32748)).then_some(values)
    }

    /// Refusals 26 and 29.
    fn region(&self, client: usize) -> Result<Region, Refusal> {
        if client != 1 && client != 2 {
            return refuse(26, 0, 0);
        }
        if !self.is_open(client) {
            return refuse(29, 0, 0);
        }
        let words = &self.words[client - 1];
        Ok(Region { at: client - 1, k: words[2], w: words[3] })
    }

    fn distinct(&self, client: usize, k: usize) -> usize {
        (1..=k).filter(|j| self.kept(client, *j).is_some()).count()
    }

    /// Opening: k.
    pub fn open(&mut self, client: usize, words: [usize; 5]) -> Result<usize, Refusal> {
        if client != 1 && client != 2 {
            return refuse(26, 0, 0);
        }
        if self.is_open(client) {
            return refuse(27, 0, 0);
        }
        if let Some(word) = bad_word(&words) {
            return refuse(17, 0, word);
        }
        if words[2] > 70 - self.reserved(3 - client) {
            return refuse(28, 0, 0);
        }
        self.words[client - 1] = words;
        Ok(words[2])
    }

    /// Handing in one block: the pieces that are kept then.
    pub fn hand_in(&mut self, client: usize, block: &[u8]) -> Result<usize, Refusal> {
        let region = self.region(client)?;
        let words = of_deal(block, &self.words[client - 1])?;
        let (piece, values) = (words[6] as usize, &words[7..7 + region.w]);
        if self.kept(client, piece).is_some_and(|kept| kept != values) {
            return refuse(19, 1, 0);
        }
        let slot = &mut self.slots[region.slot(piece)];
        slot[0] = 1;
        slot[1..=region.w].copy_from_slice(values);
        Ok(self.distinct(client, region.k))
    }

    /// Asking: the secret into the front of `out`; the number of its words.
    pub fn ask(&self, client: usize, out: &mut [u16]) -> Result<usize, Refusal> {
        let region = self.region(client)?;
        let here = self.distinct(client, region.k);
        if here < region.k {
            return refuse(20, here, region.k);
        }
        if out.len() < region.w {
            return refuse(12, region.w, 0);
        }
        let weights = weights(region.k);
        for i in 1..=region.w {
            let value = |j: usize| self.slots[region.slot(j)][i] as u64;
            let sum: u64 = (1..=region.k).map(|j| weights[j - 1] * value(j)).sum();
            out[i - 1] = (sum % P) as u16;
        }
        Ok(region.w)
    }

    /// Closing: k; nothing is left of the client.
    pub fn close(&mut self, client: usize) -> Result<usize, Refusal> {
        let region = self.region(client)?;
        for j in 1..=region.k {
            self.slots[region.slot(j)] = [0; 17];
        }
        self.words[client - 1] = [0; 5];
        Ok(region.k)
    }
}
