//! A desk of one client's own (SCOPE 5.2): it knows of no other client, of no slots and of no number 70. What two clients are answered at one desk
//! has to be what each is answered at its own, and FULL where the slots that the other has leave too few.

use super::desk::{bad_word, of_deal};
use super::{by_differences, refuse, Refusal};
use std::collections::BTreeMap;

#[derive(Clone, Default)]
pub struct Own(Option<Visit>);

/// From an opening to a closing: the five words, and the values of each piece that was handed in.
#[derive(Clone)]
struct Visit {
    words: [usize; 5],
    pieces: BTreeMap<u16, Vec<u16>>,
}

impl Own {
    pub fn open(&mut self, words: [usize; 5]) -> Result<usize, Refusal> {
        if self.0.is_some() {
            return refuse(27, 0, 0);
        }
        if let Some(word) = bad_word(&words) {
            return refuse(17, 0, word);
        }
        self.0 = Some(Visit { words, pieces: BTreeMap::new() });
        Ok(words[2])
    }

    pub fn hand_in(&mut self, block: &[u8]) -> Result<usize, Refusal> {
        let Some(visit) = &mut self.0 else { return refuse(29, 0, 0) };
        let words = of_deal(block, &visit.words)?;
        let values = words[7..7 + visit.words[3]].to_vec();
        if *visit.pieces.entry(words[6]).or_insert_with(|| values.clone()) != values {
            return refuse(19, 1, 0);
        }
        Ok(visit.pieces.len())
    }

    pub fn ask(&self, out: &mut [u16]) -> Result<usize, Refusal> {
        let Some(visit) = &self.0 else { return refuse(29, 0, 0) };
        let [_, _, k, w, _] = visit.words;
        if visit.pieces.len() < k {
            return refuse(20, visit.pieces.len(), k);
        }
        if out.len() < w {
            return refuse(12, w, 0);
        }
        for (i, word) in out[..w].iter_mut().enumerate() {
            let values: Vec<u16> = visit.pieces.values().map(|values| values[i]).collect();
            *word = by_differences(&values);
        }
        Ok(w)
    }

    pub fn close(&mut self) -> Result<usize, Refusal> {
        self.0.take().map_or_else(|| refuse(29, 0, 0), |visit| Ok(visit.words[2]))
    }
}
