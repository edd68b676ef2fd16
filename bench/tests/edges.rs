//! The edges of SCOPE's ranges, on the library: 560 and 561 blocks, an output too short by one word and by one byte, slots and words
//! of 32748 and 32749. What is expected is written here, from SCOPE.
use bench::inputs::{blocks, card, with_word};
use bench::mixed::relabel;
use bench::reference::{block_words, bytes_of, Deal, Refusal, BLOCK};
use bench::unit::{self, JOINERS};

fn p7() -> Deal {
    Deal { people: 4, required: vec![3, 6, 12], forbidden: vec![9], number: 7, year: 0, secret: vec![1234], random: vec![5, 7] }
}

fn refused(number: usize, a: usize, b: usize) -> Result<usize, Refusal> {
    Err(Refusal { number, a, b })
}

#[test]
fn blocks_560_and_561() {
    let three = blocks(&p7(), 3);
    let pile = |count: usize| (0..count).flat_map(|i| three[i % three.len()].clone()).collect::<Vec<u8>>();
    for join in JOINERS {
        let mut out = [9; 2];
        assert_eq!(join(&pile(560), &mut out), Ok(1));
        assert_eq!(out, [1234, 9]);
        let mut out = [9; 2];
        assert_eq!(join(&pile(561), &mut out), refused(14, 0, 0));
        assert_eq!(out, [9, 9]);
    }
}

#[test]
fn every_order_of_three_pieces() {
    let three = blocks(&p7(), 3);
    for order in [[0, 1, 2], [0, 2, 1], [1, 0, 2], [1, 2, 0], [2, 0, 1], [2, 1, 0]] {
        for join in JOINERS {
            let mut out = [9];
            assert_eq!(join(&order.map(|i| three[i].clone()).concat(), &mut out), Ok(1));
            assert_eq!(out, [1234]);
        }
    }
}

#[test]
fn output_too_short() {
    let d = Deal { secret: vec![1, 2, 3], random: vec![0; 6], ..p7() };
    let pile = blocks(&d, 3).concat();
    for join in JOINERS {
        let mut out = [9; 2];
        assert_eq!(join(&pile, &mut out), refused(12, 3, 0));
        assert_eq!(out, [9; 2]);
        let mut out = [9; 3];
        assert_eq!(join(&pile, &mut out), Ok(3));
        assert_eq!(out, [1, 2, 3]);
    }
    let mut out = vec![9; 2 * BLOCK - 1];
    assert_eq!(unit::deal(&d, 2, &mut out), refused(12, 2, 0));
    assert!(out.iter().all(|byte| *byte == 9));
    let mut out = vec![9; 2 * BLOCK + 1];
    assert_eq!(unit::deal(&d, 2, &mut out), Ok(2));
    assert_eq!(out[2 * BLOCK], 9);
}

#[test]
fn slots_of_32748_32749_and_32767() {
    let pile = |slot: u16| {
        let mut pile = blocks(&p7(), 3).concat();
        with_word(&mut pile[BLOCK..2 * BLOCK], 8, slot, true);
        pile
    };
    for join in JOINERS {
        assert_eq!(join(&pile(32748), &mut [0]), Ok(1));
        assert_eq!(join(&pile(32749), &mut [0]), refused(15, 2, 8));
        assert_eq!(join(&pile(32767), &mut [0]), refused(15, 2, 8));
    }
}

#[test]
fn the_first_dirty_slot_is_named() {
    let good = blocks(&p7(), 3).concat();
    let dirty = |slots: &[usize]| {
        let mut pile = good.clone();
        for slot in slots {
            with_word(&mut pile[BLOCK..2 * BLOCK], *slot, 32767, false);
        }
        pile
    };
    for first in 1..=256 {
        for slots in [vec![first], vec![first, 256], vec![256, 128.max(first), first]] {
            let (pile, mut out, mut head) = (dirty(&slots), [9; 1], [9; 7]);
            for join in JOINERS {
                assert_eq!(join(&pile, &mut out), refused(15, 2, first));
            }
            assert_eq!(unit::open(&pile[BLOCK..], &mut head), refused(15, 1, first));
            assert_eq!((out, head), ([9; 1], [9; 7]));
        }
    }
}

/// MIXED names the first block outside the largest heap, of equal heaps the earliest; the deals here differ in one word each time.
#[test]
fn the_block_outside_the_own_heap() {
    let three = blocks(&p7(), 3);
    let is = |what: &str, heaps: &[usize], other: [u16; 5], a: usize| {
        let labels = [[7, 4, 3, 1, 0], other, [7, 8, 3, 1, 0]];
        let pile: Vec<u8> = heaps.iter().enumerate().flat_map(|(at, heap)| relabel(&three[at % 3], labels[*heap])).collect();
        for join in JOINERS {
            let mut out = [9; 2];
            assert_eq!(join(&pile, &mut out), refused(18, a, 0), "{what}");
            assert_eq!(out, [9; 2]);
        }
    };
    // the deal number, by its low byte and by its high one; n, k and w, up and down; the year, by either byte and as large as can be
    let others = [[8, 4, 3, 1, 0], [263, 4, 3, 1, 0], [7, 5, 3, 1, 0], [7, 2, 3, 1, 0], [7, 4, 70, 1, 0], [7, 4, 3, 2, 0], [7, 4, 3, 16, 0]];
    for other in others.into_iter().chain([1, 256, 2026, 32748].map(|year| [7, 4, 3, 1, year])) {
        is("an old card on top", &[1, 0, 0], other, 1);
        is("an old card in the middle", &[0, 1, 0], other, 2);
        is("an old card at the end", &[0, 0, 1], other, 3);
        is("two equal heaps", &[0, 0, 1, 1], other, 3);
        is("two equal heaps, the other first", &[1, 1, 0, 0], other, 3);
        is("two equal heaps, one around the other", &[1, 0, 0, 1], other, 2);
        is("three heaps, the last the largest", &[1, 2, 0, 0, 0, 2], other, 1);
        is("three heaps, two of them equal, the smallest on top", &[2, 1, 0, 0, 1], other, 1);
        is("three blocks, three deals", &[0, 1, 2], other, 2);
    }
    let heaps = |front: usize, back: usize| [vec![1; front], vec![0; back]].concat();
    is("280 and 280", &heaps(280, 280), [8, 4, 3, 1, 0], 281);
    is("279 and 281", &heaps(279, 281), [8, 4, 3, 1, 0], 1);
    is("281 and 279", &heaps(281, 279), [8, 4, 3, 1, 0], 282);
    // 300 in a byte would be 44
    is("250 and 300", &heaps(250, 300), [8, 4, 3, 1, 0], 1);
    is("300 and 250", &heaps(300, 250), [8, 4, 3, 1, 0], 301);
}

#[test]
fn as_many_deals_as_blocks() {
    let three = blocks(&p7(), 3);
    let pile: Vec<u8> = (0..560).flat_map(|at| relabel(&three[at % 3], [1 + at as u16, 4, 3, 1, 2026])).collect();
    // a block of deal 559, which is there already: the one heap of two, which begins with block 1, or else with block 559
    let (most, again) = (&pile[..559 * BLOCK], &pile[558 * BLOCK..559 * BLOCK]);
    for join in JOINERS {
        assert_eq!(join(&pile, &mut [0]), refused(18, 2, 0));
        assert_eq!(join(&[again, most].concat(), &mut [0]), refused(18, 2, 0));
        assert_eq!(join(&[most, again].concat(), &mut [0]), refused(18, 1, 0));
    }
}

#[test]
fn words_of_32748_and_32749() {
    let with = |secret: u16, random: u16| unit::deal(&Deal { secret: vec![secret], random: vec![5, random], ..p7() }, 4, &mut [0; BLOCK]);
    assert_eq!(with(32748, 32748), Ok(1));
    assert_eq!(with(32749, 7), refused(10, 1, 0));
    assert_eq!(with(1234, 32749), refused(11, 2, 0));
}

#[test]
fn a_set_of_one_and_of_two() {
    let mut groups = [9; 70];
    assert_eq!(unit::plan(2, &[3, 2], &[3], &mut groups), refused(22, 2, 0));
    assert_eq!(groups, [9; 70]);
    assert_eq!(unit::plan(2, &[3, 3], &[2], &mut groups), Ok(2));
    assert_eq!(groups[..3], [1, 2, 9]);
}

/// No deal has one piece any more, but a card of such a deal, made earlier, is a true one and joins as it did.
#[test]
fn a_card_of_one_piece() {
    let d = Deal { people: 1, required: vec![1], forbidden: vec![], number: 7, year: 0, secret: vec![1234, 5678], random: vec![] };
    let mut out = [9; BLOCK];
    assert_eq!(unit::deal(&d, 1, &mut out), refused(22, 1, 0));
    assert_eq!(out, [9; BLOCK]);
    let card = bytes_of(&block_words([1987, 7, 1, 1, 1, 2, 1], &d.secret, 0));
    let mut out = [9; 3];
    assert_eq!(unit::join(&card, &mut out), Ok(2));
    assert_eq!(out, [1234, 5678, 9]);
}

#[test]
fn a_holder_of_no_pieces() {
    let d = Deal { people: 3, required: vec![3], forbidden: vec![], number: 1, year: 0, secret: vec![7], random: vec![8] };
    assert_eq!(unit::deal(&d, 3, &mut []), Ok(0));
    assert!(card(&d, 3).is_empty());
}
