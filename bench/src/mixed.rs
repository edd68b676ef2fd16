//! Piles of several deals of the first scheme, all blocks true: an old card on top of a good pile, in it or behind it, heaps that are equally large, many heaps.
use crate::numbers::Numbers;
use crate::reference::{bytes_of, check, words_of};

/// What tells deals of the first scheme apart: words 2, 4, 5, 6 and 24 of a block.
pub type Label = [u16; 5];

/// The words of a block that a label has, from 1, and the least and the most that each may be.
const WORDS: [(usize, u16, u16); 5] = [(2, 1, 32748), (4, 1, 8), (5, 1, 70), (6, 1, 16), (24, 0, 32748)];

/// Words 2, 4, 5, 6 and 24 of a block.
pub fn label(block: &[u8]) -> Label {
    let words = words_of(block);
    WORDS.map(|(i, _, _)| words[i - 1])
}

/// A true block made one of another deal, and true again: holder and piece are brought into range, and what is behind the values is 0,
/// but for the year.
pub fn relabel(block: &[u8], label: Label) -> Vec<u8> {
    let mut words = words_of(block);
    words[7 + label[3] as usize..255].fill(0);
    for ((i, _, _), value) in WORDS.iter().zip(label) {
        words[i - 1] = value;
    }
    words[2] = words[2].min(words[3]);
    words[6] = words[6].min(words[4]);
    words[255] = check(&words);
    bytes_of(&words).to_vec()
}

/// Another value of word `at` of a label: a neighbour, one that differs in its high byte alone, or any.
fn other(n: &mut Numbers, at: usize, value: u16) -> u16 {
    let (_, least, most) = WORDS[at];
    loop {
        let new = match n.below(4) {
            0 => value + 1,
            1 => value.wrapping_sub(1),
            2 => value ^ 256,
            _ => least + n.below((most - least) as usize + 1) as u16,
        };
        if new != value && (least..=most).contains(&new) {
            return new;
        }
    }
}

/// So many deals, the given one first, no two alike. A new one mostly differs in one word from one that is there already, and else in all five.
pub fn labels(n: &mut Numbers, first: Label, count: usize) -> Vec<Label> {
    let mut labels = vec![first];
    while labels.len() < count {
        let mut new = labels[n.below(labels.len())];
        let alone = n.below(5);
        let all = n.once_in(5);
        for at in (0..5).filter(|at| all || *at == alone) {
            new[at] = other(n, at, new[at]);
        }
        if !labels.contains(&new) {
            labels.push(new);
        }
    }
    labels
}

/// Of which deal each block is, by a deal's place in a list of them, and how such a pile is called.
pub fn order(n: &mut Numbers, most: usize) -> (&'static str, Vec<usize>) {
    let half = 1 + n.below(most / 2);
    let old = |n: &mut Numbers| 1 + n.below(half.min(5));
    match n.below(9) {
        0 => {
            let old = old(n);
            ("an old card on top", [vec![1; old], vec![0; half + old]].concat())
        }
        1 => {
            let old = old(n);
            ("an old card in the middle", [vec![0; half], vec![1; old], vec![0; old]].concat())
        }
        2 => {
            let old = old(n);
            ("an old card at the end", [vec![0; half + old], vec![1; old]].concat())
        }
        3 => ("two equal heaps, one behind the other", [vec![0; half], vec![1; half]].concat()),
        4 => {
            let mut order = [vec![0; half], vec![1; half]].concat();
            n.shuffle(&mut order);
            ("two equal heaps, shuffled", order)
        }
        5 => {
            let mut order = [vec![1; half], vec![2; half]].concat();
            n.shuffle(&mut order);
            ("one block on top of two equal heaps", [vec![0], order].concat())
        }
        6 => {
            let mut order: Vec<usize> = (0..3).flat_map(|heap| vec![heap; 1 + n.below(half)]).collect();
            n.shuffle(&mut order);
            ("three heaps", order)
        }
        7 => ("every block of another deal", (0..2 * half).collect()),
        _ => {
            let heaps = 2 + n.below(6);
            ("any heaps", (0..2 * half).map(|_| n.below(heaps)).collect())
        }
    }
}

/// The pile that an order describes, its blocks made of these.
pub fn laid(blocks: &[Vec<u8>], labels: &[Label], order: &[usize]) -> Vec<Vec<u8>> {
    order.iter().enumerate().map(|(at, deal)| relabel(&blocks[at % blocks.len()], labels[*deal])).collect()
}

/// A mixed pile, or one of a single deal where it happens, from the blocks of one deal.
pub fn pile(n: &mut Numbers, blocks: &[Vec<u8>], most: usize) -> (&'static str, Vec<Vec<u8>>) {
    let (name, order) = order(n, most);
    let deals = order.iter().max().map_or(1, |deal| deal + 1);
    let mut labels = labels(n, label(&blocks[0]), deals);
    if n.once_in(2) {
        n.shuffle(&mut labels);
    }
    (name, laid(blocks, &labels, &order))
}
