//! Cards by sets, and piles of them, good and damaged; and piles in which cards of both schemes lie.
use crate::inputs::{self, with_word, year};
use crate::numbers::Numbers;
use crate::reference::{deal_by_sets, holds_in, sets, words_of, Deal, BLOCK};

/// How many coefficients a word takes.
pub fn coefficients(d: &Deal) -> usize {
    sets(d.people, &d.required).iter().map(|set| set.count_ones() as usize - 1).sum()
}

/// A deal that is accepted by the first scheme, with randomness for the second.
pub fn by_sets(n: &mut Numbers, d: &Deal) -> Deal {
    let random = (0..d.secret.len() * coefficients(d)).map(|_| n.word()).collect();
    Deal { random, ..d.clone() }
}

/// A holder's card of a deal that is accepted.
pub fn card(d: &Deal, holder: usize) -> Vec<u8> {
    let blocks = sets(d.people, &d.required).iter().filter(|set| holds_in(**set, holder).is_some()).count();
    let mut out = vec![0; blocks * BLOCK];
    assert_eq!(deal_by_sets(d, holder, &mut out), Ok(blocks));
    out
}

/// The blocks of the cards of a group.
pub fn blocks(d: &Deal, group: usize) -> Vec<Vec<u8>> {
    (1..=d.people)
        .filter(|person| group >> (person - 1) & 1 == 1)
        .flat_map(|person| card(d, person).chunks(BLOCK).map(<[u8]>::to_vec).collect::<Vec<_>>())
        .collect()
}

/// So many of the faults make a block that is not true.
pub const LAYOUT: usize = 11;

/// One thing that is done to a pile. Each leaves every check right, but for the first two.
pub const FAULTS: [&str; 20] = [
    "a word that could not be read",
    "a word that is wrong",
    "a mark of neither scheme",
    "no set",
    "set 71",
    "a set beyond the layout",
    "the other mark",
    "k above the people",
    "piece above k",
    "a word behind the set",
    "a 1987 block with a set",
    "another k, the same piece",
    "another k, another piece",
    "another value, the same set",
    "a block in another set",
    "a set that gives another secret",
    "a set in another place",
    "another number, number of people, width or year",
    "first-scheme cards beside them",
    "a set of one member",
];

fn word(block: &[u8], i: usize) -> u16 {
    words_of(block)[i - 1]
}

/// The blocks of a set, by their place from 0.
fn of_set(pile: &[Vec<u8>], set: u16) -> Vec<usize> {
    (0..pile.len()).filter(|at| word(&pile[*at], 25) == set).collect()
}

/// A copy of a block, with this word, put anywhere in the pile.
fn insert(n: &mut Numbers, pile: &mut Vec<Vec<u8>>, at: usize, i: usize, value: u16) {
    let mut block = pile[at].clone();
    with_word(&mut block, i, value, true);
    pile.insert(n.below(pile.len() + 1), block);
}

/// Does one of the faults to a pile that has blocks, all of them whole. `d` has randomness for the first scheme.
pub fn damage(n: &mut Numbers, d: &Deal, fault: &str, pile: &mut Vec<Vec<u8>>) {
    let at = n.below(pile.len());
    let block = &mut pile[at];
    let [mark, people, k, piece, set] = [1, 4, 5, 7, 25].map(|i| word(block, i));
    // another k that the layout has, with a piece of at least this one, where there is such a k
    let other_k = |n: &mut Numbers, piece: u16| {
        let others: Vec<u16> = (piece..=people).filter(|other| *other != k).collect();
        if others.is_empty() { k } else { others[n.below(others.len())] }
    };
    match fault {
        "a word that could not be read" => with_word(block, 1 + n.below(256), 32749 + n.below(32787) as u16, false),
        "a word that is wrong" => {
            let i = [1, 5, 25, 1 + n.below(256)][n.below(4)];
            let new = (word(block, i) as usize + 1 + n.below(32748)) % 32749;
            with_word(block, i, new as u16, false);
        }
        "a mark of neither scheme" => with_word(block, 1, [0, 1986, 1989, n.below(1987) as u16][n.below(4)], true),
        "no set" => with_word(block, 25, 0, true),
        "set 71" => with_word(block, 25, 71, true),
        "a set beyond the layout" => with_word(block, 25, 72 + n.below(32677) as u16, true),
        "the other mark" => with_word(block, 1, if mark == 1988 { 1987 } else { 1988 }, true),
        "k above the people" => with_word(block, 5, people + 1 + n.below(70) as u16, true),
        "piece above k" => with_word(block, 7, k + 1 + n.below(70) as u16, true),
        "a word behind the set" => with_word(block, 26 + n.below(230), 1 + n.below(32748) as u16, true),
        "another k, the same piece" => {
            let k = other_k(n, piece);
            insert(n, pile, at, 5, k);
        }
        "another k, another piece" => {
            let other = if piece > 1 { piece - 1 } else { piece + 1 };
            let k = other_k(n, other);
            let mut block = pile[at].clone();
            with_word(&mut block, 7, other, true);
            with_word(&mut block, 5, k, true);
            pile.insert(n.below(pile.len() + 1), block);
        }
        "another value, the same set" => {
            let i = 8 + n.below(d.secret.len());
            let new = (word(&pile[at], i) as usize + 1 + n.below(32748)) % 32749;
            insert(n, pile, at, i, new as u16);
        }
        "a block in another set" => {
            let other = if n.once_in(2) { 1 + n.below(8) as u16 } else { 1 + n.below(70) as u16 };
            insert(n, pile, at, 25, other);
        }
        "a set that gives another secret" => {
            let i = 8 + n.below(d.secret.len());
            let new = n.word();
            for at in of_set(pile, set).into_iter().filter(|at| word(&pile[*at], 7) == piece).collect::<Vec<_>>() {
                with_word(&mut pile[at], i, new, true);
            }
        }
        "a set in another place" => {
            let other = if n.once_in(2) { 70 } else { 1 + n.below(70) as u16 };
            for at in of_set(pile, set) {
                with_word(&mut pile[at], 25, other, true);
            }
        }
        "another number, number of people, width or year" => {
            let (i, least, most) = [(2, 1, 32748), (4, 1, 8), (6, 1, 16), (24, 0, 32748)][n.below(4)];
            let value = word(block, i);
            let new = if value < most && n.once_in(2) { value + 1 } else { value.saturating_sub(1).max(least) };
            with_word(block, i, new, true);
        }
        "first-scheme cards beside them" => {
            let mut others = inputs::blocks(d, 1 + n.below((1 << d.people) - 1));
            if others.is_empty() {
                return;
            }
            n.shuffle(&mut others);
            others.truncate([1, pile.len(), pile.len() + 1, 2 * pile.len()][n.below(4)]);
            let to = [0, pile.len(), n.below(pile.len() + 1)][n.below(3)];
            pile.splice(to..to, others);
        }
        "a 1987 block with a set" => {
            with_word(block, 1, 1987, true);
            with_word(block, 25, 1 + n.below(70) as u16, true);
        }
        "a set of one member" => {
            let place = if n.once_in(2) { 1 + n.below(3) as u16 } else { 1 + n.below(70) as u16 };
            with_word(block, 7, 1, true);
            with_word(block, 5, 1, true);
            with_word(block, 25, place, true);
        }
        _ => panic!("{fault}"),
    }
}

/// Blocks of some sets only, where there are many: all members' blocks of them, so that they may be complete.
fn of_few_sets(n: &mut Numbers, pile: &mut Vec<Vec<u8>>) {
    let mut places: Vec<u16> = pile.iter().map(|block| word(block, 25)).collect();
    places.sort();
    places.dedup();
    n.shuffle(&mut places);
    places.truncate(1 + n.below(4));
    pile.retain(|block| places.contains(&word(block, 25)));
}

/// A pile by sets: cards of a group, in order or shuffled, repeated, cut, damaged; and the faults. `d` is a deal of the first scheme, `s` the same by sets.
pub fn pile(n: &mut Numbers, d: &Deal, s: &Deal) -> (Vec<&'static str>, Vec<u8>) {
    let group = if n.once_in(2) { (1 << d.people) - 1 } else { n.below(1 << d.people) };
    let mut pile = blocks(s, group);
    if pile.len() > 24 && !n.once_in(12) {
        of_few_sets(n, &mut pile);
    }
    if n.once_in(4) && !pile.is_empty() {
        let most = if n.once_in(50) { 556 + n.below(9) } else { pile.len() + n.below(6) };
        while pile.len() < most {
            let again = pile[n.below(pile.len())].clone();
            pile.push(again);
        }
    }
    if n.once_in(2) {
        n.shuffle(&mut pile);
    }
    if n.once_in(6) && !pile.is_empty() {
        let keep = n.below(pile.len()) + 1;
        pile.truncate(keep);
    }
    let mut faults = Vec::new();
    for _ in 0..[0, 1, 1, 1, 1, 2, 3][n.below(7)] {
        if !pile.is_empty() {
            // what the layout does not see comes more often
            let fault = if n.once_in(2) { FAULTS[n.below(FAULTS.len())] } else { FAULTS[LAYOUT + n.below(FAULTS.len() - LAYOUT)] };
            damage(n, d, fault, &mut pile);
            faults.push(fault);
        }
    }
    let mut pile = pile.concat();
    if n.once_in(50) && !pile.is_empty() {
        faults.push("a torn end");
        pile.truncate(pile.len() - 1 - n.below(BLOCK - 1));
    }
    (faults, pile)
}

/// The same deal of another number or year, for what two deals by sets do beside each other.
pub fn beside(n: &mut Numbers, s: &Deal) -> Deal {
    let random = s.random.iter().map(|_| n.word()).collect();
    Deal { number: 1 + n.below(32748), year: year(n), random, ..s.clone() }
}
