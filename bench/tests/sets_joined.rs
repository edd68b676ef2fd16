//! Piles of cards by sets, on the independent implementation and on the library: which set speaks, CONFLICT within a set, MIXED by the mark, SHORT
//! without counts; and what adding, the desk and salvage do with such blocks. What is expected is written here, from SCOPE.
use bench::both::Calls;
use bench::inputs::with_word;
use bench::on_both;
use bench::reference::{self, bytes_of, set_words, words_of, Deal, Desk, Refusal, BLOCK};

on_both! {
    one_set_speaks within_a_set sets_beside_each_other of_both_schemes short_and_room sixteen_words a_set_of_one not_added_nor_handed_in salvaged
}

fn refused<T>(number: usize, a: usize, b: usize) -> Result<T, Refusal> {
    Err(Refusal { number, a, b })
}

/// P1's policy and P11's number and word, by sets: the sets are {1, 2}, {2, 3} and {3, 4}, and each has one coefficient.
fn p1() -> Deal {
    Deal { people: 4, required: vec![3, 6, 12], forbidden: vec![9], number: 7, year: 0, secret: vec![1234], random: vec![5, 7, 9] }
}

/// A block of a set, of holder 1 of four people in deal 7, with one value.
fn block(set: u16, k: u16, piece: u16, value: u16) -> Vec<u8> {
    bytes_of(&set_words([1988, 7, 1, 4, k, 1, piece], &[value], 0, set)).to_vec()
}

/// Two sets are complete, and they disagree: 2 · 10 - 15 is 5, and 2 · 20 - 34 is 6. The lower one speaks, wherever its blocks lie.
fn one_set_speaks(calls: &Calls) {
    let (low, high) = ([block(3, 2, 1, 10), block(3, 2, 2, 15)].concat(), [block(70, 2, 1, 20), block(70, 2, 2, 34)].concat());
    calls.joins("the lower first", &[&low[..], &high].concat(), 2, Ok(1), &[5]);
    calls.joins("the lower last", &[&high[..], &low].concat(), 2, Ok(1), &[5]);
    calls.joins("the lower around the other", &[&low[..BLOCK], &high, &low[BLOCK..]].concat(), 2, Ok(1), &[5]);
    calls.joins("the lower lacks a piece", &[&low[..BLOCK], &high].concat(), 2, Ok(1), &[6]);
    calls.joins("both lack a piece", &[&low[..BLOCK], &high[..BLOCK]].concat(), 2, refused(20, 0, 0), &[]);
    calls.joins("piece 1 is of the one, piece 2 of the other", &[&low[..BLOCK], &high[BLOCK..]].concat(), 2, refused(20, 0, 0), &[]);
}

/// CONFLICT within a set: another value of a piece; another k, be it on the same piece or on another. Where both rules are broken, the first block of the set.
fn within_a_set(calls: &Calls) {
    let is = |what: &str, pile: &[Vec<u8>], a: usize, b: usize| calls.joins(what, &pile.concat(), 1, refused(19, a, b), &[]);
    let one = block(3, 2, 1, 10);
    is("another value", &[one.clone(), block(3, 2, 2, 15), block(3, 2, 1, 11)], 3, 1);
    is("another k, the same piece and value", &[one.clone(), block(3, 3, 1, 10)], 2, 1);
    is("another k, the same piece, another value", &[one.clone(), block(3, 3, 1, 11)], 2, 1);
    is("another k, another piece", &[one.clone(), block(3, 3, 3, 10)], 2, 1);
    is("another k, a set between them", &[block(4, 3, 1, 5), one.clone(), block(4, 3, 2, 5), block(3, 1, 1, 10)], 4, 2);
    is("another k, against the first of its set, though its piece was there", &[block(3, 2, 2, 15), one.clone(), block(3, 3, 1, 11)], 3, 1);
    is("another value, against the first of its piece", &[block(3, 2, 2, 15), one.clone(), one.clone(), block(3, 2, 1, 11)], 4, 2);
    is("the lowest block of two", &[one.clone(), block(4, 2, 1, 1), block(4, 3, 1, 1), block(3, 2, 1, 11)], 3, 2);
    is("a complete set below", &[block(1, 1, 1, 8), one.clone(), block(3, 3, 1, 10)], 3, 2);
}

/// No CONFLICT: pieces and k of two sets have nothing to do with each other. The same block may come again.
fn sets_beside_each_other(calls: &Calls) {
    let two = [block(5, 2, 1, 10), block(5, 2, 2, 15)].concat();
    for other in [block(6, 2, 1, 11), block(4, 2, 1, 11), block(4, 3, 1, 10), block(4, 4, 3, 10), block(70, 4, 2, 15), block(5, 2, 1, 10)] {
        calls.joins("beside", &[&other[..], &two].concat(), 1, Ok(1), &[5]);
        calls.joins("behind", &[&two[..], &other].concat(), 1, Ok(1), &[5]);
    }
    // another holder of the same piece is no conflict
    let mut other = block(5, 2, 1, 10);
    with_word(&mut other, 3, 4, true);
    calls.joins("of two holders", &[&two[..], &other].concat(), 1, Ok(1), &[5]);
}

/// MIXED: by the mark, and by words 2, 4, 6 and 24, in heaps of whatever sets; k tells no deals by sets apart.
fn of_both_schemes(calls: &Calls) {
    let first = |k: u16, piece: u16| bytes_of(&reference::block_words([1987, 7, 1, 4, k, 1, piece], &[10], 0)).to_vec();
    let second = |set: u16| block(set, 2, 1, 10);
    let is = |what: &str, pile: &[Vec<u8>], a: usize| calls.joins(what, &pile.concat(), 1, refused(18, a, 0), &[]);
    is("one on one", &[first(2, 1), second(1)], 2);
    is("one on one", &[second(1), first(2, 1)], 2);
    is("one 1988 on two", &[second(1), first(2, 1), first(2, 2)], 1);
    is("one 1987 on two of two sets", &[first(2, 1), second(1), second(2)], 1);
    is("one 1987 between", &[second(1), first(2, 1), second(70)], 2);
    is("one 1988 behind", &[first(2, 1), first(2, 2), second(9)], 3);
    // by k there are two heaps of the first scheme, and one of two blocks of the second
    is("two deals of 1987", &[first(2, 1), first(3, 1), second(1), block(2, 4, 3, 8)], 1);
    is("before CONFLICT", &[second(1), block(1, 3, 1, 10), first(2, 1)], 3);
    let two = [block(5, 2, 1, 10), block(5, 2, 2, 15), block(6, 3, 1, 7)];
    calls.joins("another k", &two.concat(), 1, Ok(1), &[5]);
    for (i, value) in [(2, 8), (2, 263), (4, 5), (4, 3), (6, 2), (6, 16), (24, 1), (24, 256)] {
        for at in 0..3 {
            let mut pile = two.to_vec();
            with_word(&mut pile[at], i, value, true);
            is("another deal", &pile, at + 1);
        }
    }
}

/// SHORT has no counts, however many pieces there are; ROOM is said behind it.
fn short_and_room(calls: &Calls) {
    calls.joins("no block", &[], 1, refused(20, 0, 0), &[]);
    calls.joins("one block", &block(1, 2, 1, 10), 0, refused(20, 0, 0), &[]);
    calls.joins("three of four", &[block(1, 4, 1, 1), block(1, 4, 2, 2), block(1, 4, 4, 4)].concat(), 1, refused(20, 0, 0), &[]);
    calls.joins("without piece 1", &[block(1, 2, 2, 1), block(2, 3, 2, 2), block(2, 3, 3, 3)].concat(), 1, refused(20, 0, 0), &[]);
    calls.joins("no room", &[block(1, 2, 1, 10), block(1, 2, 2, 15)].concat(), 0, refused(12, 1, 0), &[]);
}

/// Of 16 words each has its own coefficients, those of a set one word after the other, and those of the next set behind them.
fn sixteen_words(calls: &Calls) {
    let d = Deal { secret: (0..16).map(|i| i * 2000).collect(), random: (0..48).collect(), ..p1() };
    for (holder, set, piece) in [(1, 0, 1), (2, 0, 2), (3, 1, 2), (4, 2, 2)] {
        let words = words_of(&calls.card(&d, holder));
        for i in 0..16 {
            assert_eq!(words[7 + i], (i * 2000 + piece * (16 * set + i)) as u16);
        }
        assert_eq!((words[23], words[24]), (0, set as u16 + 1));
    }
    for people in [[1, 2], [3, 2], [4, 3]] {
        calls.joins("sixteen words", &calls.cards(&d, &people), 17, Ok(16), &d.secret);
        calls.joins("room for 15", &calls.cards(&d, &people), 15, refused(12, 16, 0), &[]);
    }
}

/// No deal has a set of one member, since nobody opens alone; but the layout allows a k of 1, and joining takes it.
fn a_set_of_one(calls: &Calls) {
    calls.joins("a set of one", &block(2, 1, 1, 77), 1, Ok(1), &[77]);
    calls.joins("and a set below it", &[block(2, 1, 1, 77), block(1, 2, 1, 1)].concat(), 1, Ok(1), &[77]);
    let lone = Deal { people: 2, required: vec![1, 3], forbidden: vec![], random: vec![], ..p1() };
    assert_eq!((calls.deal_by_sets)(&lone, 1, &mut [0; BLOCK]), refused(22, 1, 0));
}

/// HEADER, word 1, with a right check; and before it what could not be read, and a wrong check.
fn not_added_nor_handed_in(calls: &Calls) {
    let (second, first) = (block(1, 2, 1, 1239), bytes_of(&reference::block_words([1987, 7, 1, 4, 2, 1, 1], &[1239], 0)).to_vec());
    let says = |block: &[u8], number: usize, b: usize| {
        let mut out = [9; BLOCK];
        assert_eq!((calls.add)(block, &[], 0, 0, &mut out), refused(number, 1, b));
        assert_eq!((calls.add)(&first, block, 0, 32749, &mut []), refused(number, 2, b));
        assert_eq!(out, [9; BLOCK]);
        for opening in [[7, 4, 2, 1, 0], [8, 4, 70, 16, 1]] {
            let mut desk = Desk::fresh();
            desk.open(2, opening).unwrap();
            let before = desk.clone();
            assert_eq!((calls.hand_in)(&mut desk, block), refused(number, 1, b));
            assert!(desk == before);
        }
    };
    let changed = |i: usize, value: u16, right: bool| {
        let mut block = second.clone();
        with_word(&mut block, i, value, right);
        block
    };
    says(&second, 17, 1);
    for (i, value) in [(25, 0), (25, 71), (2, 0), (5, 70), (255, 1)] {
        says(&changed(i, value, true), 17, 1);
    }
    says(&changed(8, 1240, false), 16, 0);
    says(&changed(256, 32749, false), 15, 256);
    says(&changed(1, 1987, true), 17, 25);
    says(&changed(1, 1986, true), 17, 1);
    let mut desk = Desk::fresh();
    desk.open(2, [7, 4, 2, 1, 0]).unwrap();
    assert_eq!((calls.hand_in)(&mut desk, &first), Ok(1));
    assert_eq!((calls.add)(&first, &first, 8, 0, &mut [0; BLOCK]), Ok(1));
}

/// Each word of a block that was lost comes back, the mark and the place of the set too.
fn salvaged(calls: &Calls) {
    let block = calls.card(&p1(), 1);
    for i in 1..=256 {
        let (mut pile, mut list) = (block.clone(), [9; 3]);
        with_word(&mut pile, i, 32767, false);
        assert_eq!(((calls.salvage)(&mut pile, &mut list), list), (Ok(1), [1, i as u16, 9]));
        assert!(pile == block, "word {i}");
    }
}
