//! Cards from the required sets (SCOPE 2.3, the scheme of source 003, section 2.3): every minimal authorised group has a deal of its own, of as many
//! pieces as it has members.

use super::dealt::{sound, sound_words, values};
use super::{bytes_of, refuse, set_words, Deal, Refusal, BLOCK};

/// The minimal authorised groups, rising: whoever leaves one of them, the others are not authorised. (Source 003 has them as Γ₀.)
pub fn sets(people: usize, required: &[u16]) -> Vec<u16> {
    let authorised = |group: u16| required.iter().any(|need| need & !group == 0);
    let minimal = |group: &u16| authorised(*group) && (0..people).all(|person| group >> person & 1 == 0 || !authorised(group & !(1 << person)));
    (0..1u32 << people).map(|group| group as u16).filter(minimal).collect()
}

/// Which member of a set a person is, from 1, in rising order; that is the person's piece of the set.
pub fn holds_in(set: u16, person: usize) -> Option<usize> {
    (set >> (person - 1) & 1 == 1).then(|| (1..=person).filter(|other| set >> (other - 1) & 1 == 1).count())
}

/// Dealing by sets: one holder's card into the front of `out`; the number of blocks.
pub fn deal_by_sets(d: &Deal, holder: usize, out: &mut [u8]) -> Result<usize, Refusal> {
    sound(d, holder)?;
    let sets = sets(d.people, &d.required);
    let members = |set: u16| set.count_ones() as usize;
    sound_words(d, sets.iter().map(|set| members(*set) - 1).sum())?;
    let blocks = sets.iter().filter(|set| holds_in(**set, holder).is_some()).count();
    if out.len() < BLOCK * blocks {
        return refuse(12, blocks, 0);
    }
    let w = d.secret.len();
    let (mut random, mut card) = (&d.random[..], out.chunks_exact_mut(BLOCK));
    for (at, set) in sets.iter().enumerate() {
        let (own, rest) = random.split_at(w * (members(*set) - 1));
        random = rest;
        if let Some(j) = holds_in(*set, holder) {
            let head = [1988, d.number as u16, holder as u16, d.people as u16, members(*set) as u16, w as u16, j as u16];
            let words = set_words(head, &values(&d.secret, own, j)[..w], d.year as u16, at as u16 + 1);
            card.next().unwrap().copy_from_slice(&bytes_of(&words));
        }
    }
    Ok(blocks)
}
