//! The independent implementation on the cases of SCOPE 8, so that what the library is held to is itself held to the text.
use bench::mixed::Label;
use bench::numbers::Numbers;
use bench::reference::*;

fn p11() -> Deal {
    Deal { people: 4, required: vec![3, 6, 12], forbidden: vec![9], number: 7, year: 0, secret: vec![1234], random: vec![5, 7] }
}

fn card(d: &Deal, holder: usize) -> Vec<u8> {
    let mut out = vec![0; 36 * BLOCK];
    let blocks = deal(d, holder, &mut out).unwrap();
    out.truncate(blocks * BLOCK);
    out
}

#[test]
fn p1_listing() {
    let text = b"people 4\nneed 1 2\nneed 2 3\nneed 3 4\nbar 1 4\n";
    let listed = "people 4 pieces 3\npiece 1 missing 1 3\npiece 2 missing 1 4\npiece 3 missing 2 4\nholder 1 has 3\nholder 2 has 1 2\nholder 3 has 2 3\nholder 4 has 1\n";
    assert_eq!(String::from_utf8(listing(text)).unwrap(), listed);
}

#[test]
fn p2_to_p6() {
    assert_eq!(plan(1, &[1], &[]), Err(Refusal { number: 22, a: 1, b: 0 }));
    assert_eq!(plan(3, &[3], &[]), Ok(vec![5, 6]));
    assert_eq!(plan(3, &[3, 5, 6], &[]), Ok(vec![1, 2, 4]));
    assert_eq!(held(&[1, 2, 4], 1), vec![2, 3]);
    assert_eq!(plan(2, &[3], &[3]), Err(Refusal { number: 6, a: 1, b: 1 }));
    assert!(plan(2, &[3], &[1]).is_ok());
}

#[test]
fn sets_of_one_member() {
    let refused = |number, a, b| Err(Refusal { number, a, b });
    // the first of two; after OPEN; before CLASH; a forbidden one is no fault
    assert_eq!(plan(3, &[3, 4, 1], &[]), refused(22, 2, 0));
    assert_eq!(plan(3, &[4, 0], &[]), refused(5, 2, 0));
    assert_eq!(plan(3, &[3, 4], &[3]), refused(22, 2, 0));
    assert_eq!(plan(3, &[3, 5], &[3]), refused(6, 1, 1));
    assert_eq!(plan(3, &[3], &[1, 2, 4]), Ok(vec![5, 6]));
    for person in 1..=8 {
        assert_eq!(plan(8, &[255, 1 << (person - 1)], &[]), refused(22, 2, 0));
    }
}

#[test]
fn p7_to_p10() {
    let pieces = |d, coefficients: &[u16]| [1, 2, 3].map(|j| piece(d, coefficients, j));
    assert_eq!(pieces(1234, &[5, 7]), [1246, 1272, 1312]);
    assert_eq!(pieces(32748, &[1, 0]), [0, 1, 2]);
    assert_eq!(pieces(0, &[23483, 10512])[0], 1246);
    assert_eq!(pieces(0, &[23483, 10512])[2], 1312);
    let sum: u64 = weights(3).iter().zip([1246, 1272, 1312]).map(|(w, v)| w * v).sum();
    assert_eq!(sum % P, 1234);
    assert_eq!(by_differences(&[1246, 1272, 1312]), 1234);
    assert_eq!(by_differences(&[0, 1, 2]), 32748);
}

/// Both formulas, for every number of pieces: the word that was dealt, and one answer for any pieces.
#[test]
fn two_formulas_from_1_to_70() {
    let mut n = Numbers::new(4);
    for k in 1..=70 {
        let weights = weights(k);
        let weighed = |pieces: &[u16]| {
            let sum: u64 = weights.iter().zip(pieces).map(|(weight, piece)| weight * *piece as u64).sum();
            (sum % P) as u16
        };
        for _ in 0..100 {
            let word = n.word();
            let coefficients: Vec<u16> = (1..k).map(|_| n.word()).collect();
            let pieces: Vec<u16> = (1..=k).map(|j| piece(word, &coefficients, j)).collect();
            assert_eq!(weighed(&pieces), word, "{k} pieces {pieces:?}");
            assert_eq!(by_differences(&pieces), word, "{k} pieces {pieces:?}");
            let pieces: Vec<u16> = (0..k).map(|_| if n.once_in(4) { 32748 * n.below(2) as u16 } else { n.word() }).collect();
            assert_eq!(weighed(&pieces), by_differences(&pieces), "{k} pieces {pieces:?}");
        }
    }
}

#[test]
fn p11_and_p12() {
    let words = words_of(&card(&p11(), 4));
    assert_eq!(words[..9], [1987, 7, 4, 4, 3, 1, 1, 1246, 0]);
    assert_eq!(words[255], 12025);
    let pile = [card(&p11(), 1), card(&p11(), 4)].concat();
    assert_eq!(join(&pile, &mut [0; 16]), Err(Refusal { number: 20, a: 2, b: 3 }));
    let pile = [card(&p11(), 1), card(&p11(), 2)].concat();
    let mut out = [9; 3];
    assert_eq!(join(&pile, &mut out), Ok(1));
    assert_eq!(out, [1234, 9, 9]);
}

/// P11 in 2026: word 24 adds 24 times 2026, which is 48624, to the check of 12025, and 60649 less p is 27900.
#[test]
fn p11_in_2026() {
    let d = Deal { year: 2026, ..p11() };
    let mut want = words_of(&card(&p11(), 4));
    (want[23], want[255]) = (2026, 27900);
    assert_eq!(words_of(&card(&d, 4)), want);
    let mut out = [9; 2];
    assert_eq!((join(&[card(&d, 1), card(&d, 2)].concat(), &mut out), out), (Ok(1), [1234, 9]));
    // alike in all but the year, values too
    let pile = [card(&d, 1), card(&p11(), 2)].concat();
    assert_eq!(join(&pile, &mut out), Err(Refusal { number: 18, a: 1, b: 0 }));
    for (year, said) in [(0, Ok(1)), (32748, Ok(1)), (32749, Err(25)), (65536, Err(25)), (1 << 40, Err(25))] {
        assert_eq!(deal(&Deal { year, ..p11() }, 4, &mut [0; BLOCK]).map_err(|r| r.number), said);
    }
}

/// Of which deal each block of a pile is, and which block, from 0, is the first outside the own heap. The pile of one deal has none.
#[test]
fn heaps_and_the_first_block_outside() {
    let of = |numbers: &[u16]| outside(&numbers.iter().map(|number| [*number, 4, 3, 1, 2026]).collect::<Vec<_>>());
    assert_eq!(of(&[]), None);
    assert_eq!(of(&[7, 7, 7]), None);
    // an old card on top, in the middle, at the end
    assert_eq!(of(&[8, 7, 7]), Some(0));
    assert_eq!(of(&[7, 8, 7]), Some(1));
    assert_eq!(of(&[7, 7, 8]), Some(2));
    // heaps that are equal: the one that begins first, in whichever order the deals come
    assert_eq!(of(&[7, 7, 8, 8]), Some(2));
    assert_eq!(of(&[8, 8, 7, 7]), Some(2));
    assert_eq!(of(&[8, 7, 7, 8]), Some(1));
    assert_eq!(of(&[9, 7, 8, 8, 7]), Some(0));
    // three heaps, and as many heaps as blocks
    assert_eq!(of(&[8, 9, 7, 7]), Some(0));
    assert_eq!(of(&[7, 8, 9, 7]), Some(1));
    assert_eq!(of(&[6, 7, 8, 9]), Some(1));
    // each of the five words tells heaps apart
    let one: Label = [7, 4, 3, 1, 2026];
    for at in 0..5 {
        let mut other = one;
        other[at] += 1;
        assert_eq!(outside(&[other, one, one]), Some(0));
        assert_eq!(heaps(&[other, one, one]), vec![(other, 1), (one, 2)]);
    }
}

/// Of P11's block the words before the value come to 2057 in the check, and 8 times 1246 makes 12025: each word that is lost comes back.
#[test]
fn p11_salvaged() {
    let block = card(&p11(), 4);
    for i in 1..=256 {
        for slot in [32749, 32767, 65535] {
            let mut words = words_of(&block);
            words[i - 1] = slot;
            let (mut pile, mut list) = (bytes_of(&words), [9; 3]);
            assert_eq!(salvage(&mut pile, &mut list), Ok(1));
            assert_eq!((pile.to_vec(), list), (block.clone(), [1, i as u16, 9]));
        }
    }
}

/// Of all 32749 values one makes the check come out.
#[test]
fn one_value_for_a_word() {
    for i in [1, 2, 7, 8, 128, 255, 256] {
        let mut words = words_of(&card(&p11(), 4));
        let found: Vec<u16> = (0..=32748)
            .filter(|value| {
                words[i - 1] = *value;
                check(&words) == words[255]
            })
            .collect();
        assert_eq!(found, vec![value_for(&words, i)], "word {i}");
    }
}

/// P11's block with one word changed, its check left, and one word lost.
#[test]
fn salvaged_with_another_fault() {
    let salvaged = |changes: &[(usize, u16)]| {
        let mut words = words_of(&card(&p11(), 4));
        for (i, value) in changes {
            words[i - 1] = *value;
        }
        let (mut pile, mut list) = (bytes_of(&words), [9; 2]);
        let said = salvage(&mut pile, &mut list);
        (words_of(&pile) == words, words_of(&pile), said, list)
    };
    // value 1247 for 1246: words 9 and 25 would have to be -8/9 and -8/25, and word 7 -1/7, which is 23392; none may be, and all stays
    for lost in [9, 25, 7] {
        let (same, _, said, list) = salvaged(&[(8, 1247), (lost, 32767)]);
        assert_eq!((same, said, list), (true, Ok(0), [9, 9]));
    }
    // but word 24 may be -8/24, which is -1/3 and so 10916, since 3 times that is p - 1
    let (_, words, said, list) = salvaged(&[(8, 1247), (24, 32767)]);
    assert_eq!((words[23], words[255], said, list), (10916, 12025, Ok(1), [1, 24]));
    // holder 3 for 4: the value would have to be (12025 - 2054)/8, which is 5340; that is a true block, though it is not the one dealt
    let (_, words, said, list) = salvaged(&[(3, 3), (8, 32767)]);
    assert_eq!((words[2], words[7], words[255], said, list), (3, 5340, 12025, Ok(1), [1, 8]));
    // the mark lost where word 256 is 0: no mark but 1987 and 1988 is one
    let (same, _, said, _) = salvaged(&[(1, 32767), (256, 0)]);
    assert_eq!((same, said), (true, Ok(0)));
    // two words lost
    let (same, _, said, list) = salvaged(&[(8, 32767), (256, 32767)]);
    assert_eq!((same, said, list), (true, Ok(0), [9, 9]));
}

#[test]
fn salvage_program() {
    let mut pile = [card(&p11(), 1), card(&p11(), 2)].concat();
    let good = pile.clone();
    assert_eq!(salvaging(&pile), (good.clone(), b"rebuilt 0\n".to_vec()));
    pile[2 * BLOCK..2 * BLOCK + 2].copy_from_slice(&[127, 255]);
    pile[BLOCK - 2..BLOCK].copy_from_slice(&[128, 0]);
    assert_eq!(salvaging(&pile), (good, b"rebuilt 2\nblock 1 word 256\nblock 3 word 1\n".to_vec()));
    assert_eq!(salvaging(&pile[1..]), (vec![], b"refused 13 0 0\n".to_vec()));
    assert_eq!(salvaging(&[0; 65537]), (vec![], b"refused 14 0 0\n".to_vec()));
    assert_eq!(salvaging(&[]), (vec![], b"rebuilt 0\n".to_vec()));
    assert_eq!(salvaging(&[0; 65536]), (vec![0; 65536], b"rebuilt 0\n".to_vec()));
}

/// P11's deal and deal 8 of secret 0, coefficients 32748 and 1 (pieces 0, 2, 6), under 9: pieces 1246, 1274, 1318, and 3 times the first less 3 times
/// the second and the third come to 1234. Of holder 4's block the words before the value come to 2061, and 8 times 1246 makes 12029.
#[test]
fn p11_renewed() {
    let zeros = Deal { number: 8, secret: vec![0], random: vec![32748, 1], ..p11() };
    let renewed = |holder: usize| {
        let (old, zero) = (card(&p11(), holder), card(&zeros, holder));
        let blocks = old.chunks(BLOCK).zip(zero.chunks(BLOCK)).map(|(one, two)| {
            let mut out = [9; BLOCK];
            assert_eq!(add(one, two, 9, 0, &mut out), Ok(1));
            // the old number in a new year: 7 for 9 in word 2, and 24 times 2026 more
            let mut again = [9; BLOCK];
            assert_eq!(add(one, two, 7, 2026, &mut again), Ok(1));
            let mut want = words_of(&out);
            (want[1], want[23]) = (7, 2026);
            want[255] = ((want[255] as u64 + P - 4 + 48624) % P) as u16;
            assert_eq!(words_of(&again), want);
            assert_eq!(add(one, two, 7, 0, &mut again), Err(Refusal { number: 8, a: 0, b: 0 }));
            out
        });
        blocks.collect::<Vec<_>>()
    };
    let pile = [renewed(4), renewed(2), renewed(1)].concat();
    let values: Vec<(u16, u16)> = pile.iter().map(|block| (words_of(block)[6], words_of(block)[7])).collect();
    assert_eq!(values, [(1, 1246), (1, 1246), (2, 1274), (3, 1318)]);
    let words = words_of(&pile[0]);
    assert_eq!(words[..9], [1987, 9, 4, 4, 3, 1, 1, 1246, 0]);
    assert_eq!(words[255], 12029);
    let mut out = [9; 2];
    assert_eq!((join(&pile.concat(), &mut out), out), (Ok(1), [1234, 9]));
    // an old block among the new ones, on top and at the end; the old ones among themselves
    let old = [card(&p11(), 4), pile[2].to_vec(), pile[3].to_vec()].concat();
    assert_eq!(join(&old, &mut out), Err(Refusal { number: 18, a: 1, b: 0 }));
    let old = [pile[0].to_vec(), pile[2].to_vec(), card(&p11(), 1)].concat();
    assert_eq!(join(&old, &mut out), Err(Refusal { number: 18, a: 3, b: 0 }));
    let old = [card(&p11(), 1), card(&p11(), 2)].concat();
    assert_eq!((join(&old, &mut out), out), (Ok(1), [1234, 9]));
}

#[test]
fn eight_people_any_five() {
    let fives: Vec<u16> = (0..256).filter(|set: &u16| set.count_ones() == 5).collect();
    let groups = plan(8, &fives, &[]).unwrap();
    assert_eq!(groups.len(), 70);
    assert!((1..=8).all(|holder| held(&groups, holder).len() == 35));
}
