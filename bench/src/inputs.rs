//! Policies, deals and piles, good and damaged, for tests and benchmarks.
use crate::mixed;
use crate::numbers::Numbers;
use crate::reference::{bytes_of, check, deal, plan, words_of, Deal, BLOCK};

/// A policy: how many people, the required sets, the forbidden sets. About half are accepted; others have one or more faults. Required sets
/// of one member come as they will in one policy of four, and rarely in the others.
pub fn policy(n: &mut Numbers) -> (usize, Vec<u16>, Vec<u16>) {
    let people = match n.below(40) {
        0 => 0,
        1 => 9 + n.below(3),
        2 => usize::MAX - n.below(2),
        _ => 1 + n.below(8),
    };
    let all = 1u32 << people.clamp(1, 8);
    let most = if n.once_in(50) { 250 + n.below(12) } else { n.below(7) };
    let mut required: Vec<u16> = (0..most).map(|_| 1 + n.below(all as usize - 1) as u16).collect();
    if n.once_in(3) {
        // thresholds make many pieces
        let least = 1 + n.below(people.clamp(1, 8)) as u32;
        required = (0..all as u16).filter(|set| set.count_ones() == least).collect();
        n.shuffle(&mut required);
    }
    let most = if n.once_in(50) { 250 + n.below(12) } else { n.below(4) };
    let mut forbidden: Vec<u16> = (0..most)
        .map(|_| {
            let set = n.below(all as usize) as u16;
            if n.once_in(4) { set } else { set & n.below(all as usize) as u16 }
        })
        .collect();
    if people > 1 && !n.once_in(4) {
        for set in &mut required {
            while set.count_ones() == 1 {
                *set |= 1 << n.below(people.min(8));
            }
        }
        if n.once_in(25) && !required.is_empty() {
            let at = n.below(required.len());
            required[at] = 1 << n.below(people.min(8));
        }
    }
    if n.once_in(25) && !required.is_empty() {
        let at = n.below(required.len());
        required[at] = if n.once_in(2) { 0 } else { n.next() as u16 };
    }
    if n.once_in(25) && !forbidden.is_empty() {
        let at = n.below(forbidden.len());
        forbidden[at] = n.next() as u16;
    }
    (people, required, forbidden)
}

/// A year that is accepted: often 0, which cards of the former layout have, and often at an edge.
pub fn year(n: &mut Numbers) -> usize {
    match n.below(8) {
        0..=2 => 0,
        3 => 1,
        4 => 2026,
        5 => 32748,
        _ => n.below(32749),
    }
}

/// One that is not; some are accepted years in their low 16 or 32 bits.
pub fn bad_year(n: &mut Numbers) -> usize {
    [32749, 65535, 65536, 65536 + year(n), 1 << 40, (1 << 40) + year(n), usize::MAX][n.below(7)]
}

/// A deal that is accepted.
pub fn good_deal(n: &mut Numbers) -> Deal {
    loop {
        let (people, required, forbidden) = policy(n);
        if let Ok(groups) = plan(people, &required, &forbidden) {
            let w = 1 + n.below(16);
            return Deal {
                people,
                required,
                forbidden,
                number: 1 + n.below(32748),
                year: year(n),
                secret: (0..w).map(|_| n.word()).collect(),
                random: (0..w * (groups.len() - 1)).map(|_| n.word()).collect(),
            };
        }
    }
}

/// One argument of a deal made bad.
pub fn spoil(n: &mut Numbers, d: &mut Deal, holder: &mut usize) {
    match n.below(9) {
        0 => d.number = [0, 32749, 65536, usize::MAX][n.below(4)],
        8 => d.year = bad_year(n),
        1 => *holder = [0, d.people + 1, usize::MAX][n.below(3)],
        2 => d.secret.clear(),
        3 => d.secret.resize(17 + n.below(3), 7),
        4 => {
            let at = n.below(d.secret.len().max(1));
            if let Some(word) = d.secret.get_mut(at) {
                *word = 32749 + n.below(32787) as u16;
            }
        }
        5 => d.random.push(1),
        6 => {
            d.random.pop();
        }
        _ => {
            let at = n.below(d.random.len().max(1));
            if let Some(word) = d.random.get_mut(at) {
                *word = 32749 + n.below(32787) as u16;
            }
        }
    }
}

/// A holder's card of a deal that is accepted.
pub fn card(d: &Deal, holder: usize) -> Vec<u8> {
    let mut out = vec![0; 70 * BLOCK];
    let blocks = deal(d, holder, &mut out).expect("an accepted deal");
    out.truncate(blocks * BLOCK);
    out
}

/// The blocks of the cards of a group.
pub fn blocks(d: &Deal, group: usize) -> Vec<Vec<u8>> {
    (1..=d.people)
        .filter(|person| group >> (person - 1) & 1 == 1)
        .flat_map(|person| card(d, person).chunks(BLOCK).map(<[u8]>::to_vec).collect::<Vec<_>>())
        .collect()
}

/// Block with word i (from 1) set to a value; its check made right again where that is asked for.
pub fn with_word(block: &mut [u8], i: usize, value: u16, right: bool) {
    let mut words = words_of(block);
    words[i - 1] = value;
    if right && i < 256 {
        words[255] = check(&words);
    }
    block.copy_from_slice(&bytes_of(&words));
}

/// One fault in a pile: one to three dirty slots of a block, a changed word with or without a right check, two wrong words of one header, another deal's block,
/// a block whose values conflict, a torn end, a word beside the year. The edges of a range come often.
pub fn damage(n: &mut Numbers, d: &Deal, pile: &mut Vec<Vec<u8>>) {
    if pile.last().is_none_or(|block| block.len() < BLOCK) {
        return;
    }
    let at = n.below(pile.len());
    match n.below(10) {
        0 => {
            let slot = if n.once_in(8) { 32749 } else { 32749 + n.below(32787) as u16 };
            for _ in 0..1 + n.below(3) {
                let word = if n.once_in(8) { 256 } else { 1 + n.below(256) };
                with_word(&mut pile[at], word, slot, false);
            }
        }
        1 => with_word(&mut pile[at], 1 + n.below(256), n.next() as u16, false),
        2 => with_word(&mut pile[at], 1 + n.below(7), n.below(80) as u16, true),
        3 => with_word(&mut pile[at], 8 + n.below(20), n.word(), true),
        4 => {
            let word = if n.once_in(8) { 255 } else { 1 + n.below(255) };
            with_word(&mut pile[at], word, n.word(), true);
        }
        5 => {
            let word = [2, 4, 5, 6, 24][n.below(5)];
            let value = words_of(&pile[at])[word - 1];
            let less = value.saturating_sub(1).max(if word == 24 { 0 } else { 1 });
            with_word(&mut pile[at], word, if n.once_in(2) { value + 1 } else { less }, true);
        }
        6 => {
            let mut block = pile[at].clone();
            with_word(&mut block, 8 + n.below(d.secret.len()), n.word(), true);
            let to = n.below(pile.len() + 1);
            pile.insert(to, block);
        }
        7 => {
            for _ in 0..2 {
                let value = if n.once_in(2) { 0 } else { n.below(80) as u16 };
                with_word(&mut pile[at], 1 + n.below(7), value, true);
            }
        }
        8 => with_word(&mut pile[at], 23 + n.below(3), [1, 2026, 32748, n.word()][n.below(4)], true),
        _ => {
            let keep = n.below(BLOCK + 1);
            pile.last_mut().unwrap().truncate(keep);
        }
    }
}

/// A pile: cards of a group, in order or shuffled, repeated, cut, mixed with other deals, damaged.
pub fn pile(n: &mut Numbers, d: &Deal) -> Vec<u8> {
    let group = if n.once_in(2) { (1 << d.people) - 1 } else { n.below(1 << d.people) };
    let mut pile = blocks(d, group);
    if n.once_in(3) && !pile.is_empty() {
        let most = if n.once_in(20) { 565 } else { pile.len() + n.below(8) };
        while pile.len() < most {
            let again = pile[n.below(pile.len())].clone();
            pile.push(again);
        }
    }
    if n.once_in(2) {
        n.shuffle(&mut pile);
    }
    if n.once_in(6) && !pile.is_empty() {
        let keep = n.below(pile.len()) + 1;
        pile.truncate(keep);
    }
    if n.once_in(10) && !pile.is_empty() {
        pile = mixed::pile(n, &pile, 12).1;
    }
    if !n.once_in(3) {
        for _ in 0..1 + n.below(2) {
            damage(n, d, &mut pile);
        }
    }
    pile.concat()
}
