//! SCOPE written a second time: nothing here is shared with the proved code.
//! Where the proved code and this disagree, SCOPE decides.

mod adding;
mod block;
mod bysets;
mod dealt;
mod desk;
mod heaps;
mod holdings;
mod joined;
mod keys;
mod own;
mod pile;
mod programs;
mod salvage;

pub use adding::add;
pub use block::{block_words, bytes_of, check, open, set_words, words_of};
pub use bysets::{deal_by_sets, holds_in, sets};
pub use dealt::{deal, piece, Deal};
pub use desk::{Desk, OPENING};
pub use heaps::{heaps, outside};
pub use holdings::{judge, own, Holdings, Verdict};
pub use joined::{by_differences, join, join_by_differences, weights};
pub use keys::{deal_key, join_key, pack, unpack};
pub use own::Own;
pub use programs::{joining, listing, read_policy, salvaging};
pub use salvage::{salvage, value_for};

/// The prime of the build.
pub const P: u64 = 32749;

/// A card block has 512 bytes.
pub const BLOCK: usize = 512;

/// A refusal: its number and its two places.
#[derive(Clone, Copy, Debug, PartialEq, Eq)]
pub struct Refusal {
    pub number: usize,
    pub a: usize,
    pub b: usize,
}

fn refuse<T>(number: usize, a: usize, b: usize) -> Result<T, Refusal> {
    Err(Refusal { number, a, b })
}

/// Planning: the group of each piece, in rising order.
pub fn plan(people: usize, required: &[u16], forbidden: &[u16]) -> Result<Vec<u16>, Refusal> {
    if people == 0 || people > 8 {
        return refuse(1, 0, 0);
    }
    for (list, sets) in [(1, required), (2, forbidden)] {
        if sets.len() > 256 {
            return refuse(2, list, 0);
        }
    }
    for (list, sets) in [(1, required), (2, forbidden)] {
        if let Some(at) = sets.iter().position(|set| set >> people != 0) {
            return refuse(3, list, at + 1);
        }
    }
    if required.is_empty() {
        return refuse(4, 0, 0);
    }
    if let Some(at) = required.iter().position(|set| *set == 0) {
        return refuse(5, at + 1, 0);
    }
    let members = |set: u16| (1..=people).filter(|person| set >> (person - 1) & 1 == 1).count();
    if let Some(at) = required.iter().position(|set| members(*set) == 1) {
        return refuse(22, at + 1, 0);
    }
    for (r, need) in required.iter().enumerate() {
        for (f, bar) in forbidden.iter().enumerate() {
            if need & !bar == 0 {
                return refuse(6, r + 1, f + 1);
            }
        }
    }
    let all = 1usize << people;
    let authorised: Vec<bool> = (0..all).map(|group| required.iter().any(|need| *need as usize & !group == 0)).collect();
    let maximal = |group: &usize| {
        !authorised[*group] && (0..people).all(|person| group >> person & 1 == 1 || authorised[group | 1 << person])
    };
    // never over 70 of them, though nothing here sees to it
    Ok((0..all).filter(maximal).map(|group| group as u16).collect())
}

/// The pieces that a holder has, from 1.
pub fn held(groups: &[u16], holder: usize) -> Vec<usize> {
    (1..=groups.len()).filter(|j| groups[j - 1] >> (holder - 1) & 1 == 0).collect()
}
