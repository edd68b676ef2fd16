//! Pairs of blocks for adding, with a new number and year and an output: blocks that add up, and such as lack something, one thing or several.
use crate::inputs::{bad_year, card, with_word, year};
use crate::numbers::Numbers;
use crate::reference::{block_words, bytes_of, open, words_of, Deal, BLOCK};
use crate::unit;

/// What an addition is asked.
pub struct Pair {
    pub one: Vec<u8>,
    pub two: Vec<u8>,
    pub number: usize,
    pub year: usize,
    pub out: Vec<u8>,
}

/// Number and year of the deal that a block is of.
pub fn of_block(block: &[u8]) -> (usize, usize) {
    let words = words_of(block);
    (words[1] as usize, words[23] as usize)
}

/// A deal by the same policy, of as many words: of zeros, or of any. Every other one is of the same year, and one of eight has the same number.
pub fn beside(n: &mut Numbers, d: &Deal, zeros: bool) -> Deal {
    let secret = d.secret.iter().map(|_| if zeros { 0 } else { n.word() }).collect();
    let random = d.random.iter().map(|_| n.word()).collect();
    let number = if n.once_in(8) { d.number } else { 1 + n.below(32748) };
    let year = if n.once_in(2) { d.year } else { year(n) };
    Deal { number, year, secret, random, ..d.clone() }
}

/// A number and a year that are none of these pairs; often one of the two is that of a pair, or each is, of two pairs.
pub fn another(n: &mut Numbers, pairs: &[(usize, usize)]) -> (usize, usize) {
    loop {
        let number = match n.below(5) {
            0 => [1, 2, 32747, 32748][n.below(4)],
            1 | 2 => pairs[n.below(pairs.len())].0,
            _ => 1 + n.below(32748),
        };
        let year = if n.once_in(3) { pairs[n.below(pairs.len())].1 } else { year(n) };
        if !pairs.contains(&(number, year)) {
            return (number, year);
        }
    }
}

/// The blocks of all cards of two deals that differ in number, year, secret and randomness only: as many, and each like its fellow.
pub fn fellows(one: &Deal, two: &Deal) -> Vec<[Vec<u8>; 2]> {
    let cards = |d: &Deal| (1..=d.people).flat_map(|holder| card(d, holder)).collect::<Vec<u8>>();
    let (one, two) = (cards(one), cards(two));
    one.chunks(BLOCK).zip(two.chunks(BLOCK)).map(|(one, two)| [one.to_vec(), two.to_vec()]).collect()
}

/// Of a true block another that differs in word i, 3 to 7, and may differ in word 7 too; none where it came out the same, or the block is not true.
fn unlike(n: &mut Numbers, block: &[u8], i: usize) -> Option<Vec<u8>> {
    if block.len() != BLOCK || open(block).is_err() {
        return None;
    }
    let words = words_of(block);
    let mut head = <[u16; 7]>::try_from(&words[..7]).unwrap();
    let mut any = |low: u16, high: u16| low + n.below((high - low) as usize + 1) as u16;
    head[i - 1] = match i {
        3 => any(1, head[3]),
        4 => any(head[2], 8),
        5 => any(head[6], 70),
        6 => any(1, 16),
        _ => any(1, head[4]),
    };
    if head[i - 1] == words[i - 1] {
        return None;
    }
    if i < 7 && n.once_in(4) {
        head[6] = 1 + n.below(head[4] as usize) as u16;
    }
    let values: Vec<u16> = words[7..7 + head[5] as usize].to_vec();
    Some(bytes_of(&block_words(head, &values, words[23])).to_vec())
}

/// One thing wrong with a block: its length, a dirty word, a word with a wrong check, a word that the layout has not.
pub fn damage(n: &mut Numbers, block: &mut Vec<u8>) {
    let length = [0, 1, 256, 511, 513, 1023, 1024, 1536][n.below(8)];
    match (n.below(5), block.len() == BLOCK) {
        (0 | 1, _) | (_, false) => block.resize(length, n.next() as u8),
        (2, _) => with_word(block, 1 + n.below(256), 32749 + n.below(32787) as u16, false),
        (3, _) => {
            let (i, new) = (1 + n.below(256), n.word());
            let was = words_of(block)[i - 1];
            with_word(block, i, if new == was { (new + 1) % 32749 } else { new }, false);
        }
        _ => {
            let (i, value) = match n.below(4) {
                0 => (1, 1988),
                1 => (2, 0),
                2 => (3 + n.below(5), [0, 71, 9 + n.below(62) as u16][n.below(3)]),
                _ => {
                    let i = [8 + words_of(block)[5].clamp(1, 16) as usize + n.below(3), 23, 25][n.below(3)];
                    (if i == 24 { 255 } else { i }, 1 + n.below(32748) as u16)
                }
            };
            with_word(block, i, value, true);
        }
    }
}

/// One thing wrong with a pair.
fn spoil(n: &mut Numbers, p: &mut Pair) {
    match n.below(10) {
        0 => damage(n, &mut p.one),
        1 => damage(n, &mut p.two),
        2 => {
            damage(n, &mut p.one);
            damage(n, &mut p.two);
        }
        3 | 4 => {
            let i = 3 + n.below(5);
            let block = if n.once_in(2) { &mut p.one } else { &mut p.two };
            if let Some(other) = unlike(n, block, i) {
                *block = other;
            }
        }
        5..=7 => {
            let old = |block: &[u8]| if block.len() == BLOCK { of_block(block) } else { (0, 0) };
            let (one, two) = (old(&p.one), old(&p.two));
            (p.number, p.year) = match n.below(9) {
                0 => (0, p.year),
                1 | 2 => ([32749, 65535, 65536 + p.number, 1 << 40, usize::MAX, (1 << 40) + p.number][n.below(6)], p.year),
                3 | 4 => one,
                5 | 6 => two,
                // old pairs in their low 16 bits, and the number of the one with the year of the other
                7 => [(one.0, 65536 + one.1), (65536 + one.0, one.1), (two.0, (1 << 40) + two.1)][n.below(3)],
                _ => [(one.0, two.1), (two.0, one.1)][n.below(2)],
            };
        }
        8 => p.year = bad_year(n),
        _ => {
            let room = [0, 1, 510, 511, 511, n.below(BLOCK)][n.below(6)];
            p.out.truncate(room);
        }
    }
}

/// A pair of blocks of two deals, or of one, under a new number and year; five in eight with one to three things wrong.
pub fn pair(n: &mut Numbers, fellows: &[[Vec<u8>; 2]]) -> Pair {
    let [one, mut two] = fellows[n.below(fellows.len())].clone();
    match n.below(8) {
        0 => two = one.clone(),
        1 => {
            with_word(&mut two, 2, words_of(&one)[1], true);
            if n.once_in(2) {
                with_word(&mut two, 24, words_of(&one)[23], true);
            }
        }
        2 => {
            // a value whose sum is p, or p - 1
            let w = words_of(&one)[5] as usize;
            let i = 8 + n.below(w);
            let value = (32749 - words_of(&one)[i - 1] - n.below(2) as u16) % 32749;
            with_word(&mut two, i, value, true);
        }
        _ => (),
    }
    let (number, year) = another(n, &[of_block(&one), of_block(&two)]);
    let room = [BLOCK, BLOCK, BLOCK + 1, 2 * BLOCK, BLOCK + n.below(BLOCK)][n.below(5)];
    let out = (0..room).map(|_| n.next() as u8).collect();
    let mut p = Pair { one, two, number, year, out };
    if n.once_in(4) {
        std::mem::swap(&mut p.one, &mut p.two);
    }
    for _ in 0..[0, 0, 0, 1, 1, 1, 2, 3][n.below(8)] {
        spoil(n, &mut p);
    }
    p
}

/// The sum of two blocks that add up, by the library.
pub fn sum(one: &[u8], two: &[u8], (number, year): (usize, usize)) -> Vec<u8> {
    let mut out = vec![0; BLOCK];
    assert_eq!(unit::add(one, two, number, year, &mut out), Ok(1));
    out
}
