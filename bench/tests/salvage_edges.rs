//! The edges of salvage, on the library: each of the 256 words, both sides of each limit, lists that are too short. What is expected is written
//! here, from SCOPE.
use bench::inputs::{blocks, with_word};
use bench::reference::{bytes_of, check, words_of, Deal, Refusal, BLOCK};
use bench::unit;

/// Pieces 3, 1, 2 of P7, as holders 1 and 2 have them.
fn three() -> Vec<u8> {
    let d = Deal { people: 4, required: vec![3, 6, 12], forbidden: vec![9], number: 7, year: 0, secret: vec![1234], random: vec![5, 7] };
    blocks(&d, 3).concat()
}

fn refused(number: usize, a: usize, b: usize) -> Result<usize, Refusal> {
    Err(Refusal { number, a, b })
}

#[test]
fn every_word_of_every_block() {
    let good = three();
    for i in 1..=256 {
        for slot in [32749, 32767, 32768, 65535] {
            let (mut pile, mut list) = (good.clone(), [9; 8]);
            for (block, word) in [(0, i), (2, 257 - i)] {
                with_word(&mut pile[block * BLOCK..][..BLOCK], word, slot, false);
            }
            assert_eq!(unit::join(&pile, &mut [0]), refused(15, 1, i));
            assert_eq!(unit::salvage(&mut pile, &mut list), Ok(2));
            assert!(pile == good);
            assert_eq!(list, [1, i as u16, 3, 257 - i as u16, 9, 9, 9, 9]);
            let mut out = [9; 2];
            assert_eq!((unit::join(&pile, &mut out), out), (Ok(1), [1234, 9]));
        }
    }
}

/// A block that lost two words stays, and so does one with 32748 in a slot, which is clean.
#[test]
fn what_stays() {
    for (one, other) in [(1, 2), (7, 8), (8, 256), (255, 256), (1, 256)] {
        let mut pile = three();
        with_word(&mut pile[BLOCK..2 * BLOCK], one, 32767, false);
        with_word(&mut pile[BLOCK..2 * BLOCK], other, 32749, false);
        let (before, mut list) = (pile.clone(), [9; 6]);
        assert_eq!(unit::salvage(&mut pile, &mut list), Ok(0));
        assert!(pile == before && list == [9; 6]);
    }
    for i in 1..=256 {
        let mut pile = three();
        with_word(&mut pile[BLOCK..2 * BLOCK], i, 32748, false);
        let (before, mut list) = (pile.clone(), [9; 6]);
        assert_eq!(unit::salvage(&mut pile, &mut list), Ok(0));
        assert!(pile == before && list == [9; 6]);
    }
}

/// A value that was read one too high, so that the sum has 8 too much: the one word that was lost would have to make up for it. Word 2 can, with 3
/// for 7, word 4 with 2 for 4, which is as many people as the holder's number, word 9 as another value, word 24 as another year, whatever that
/// comes to, and word 256 as another check. With any other word the layout would break: it stays lost.
#[test]
fn a_fault_beside_the_lost_word() {
    let d = Deal { people: 4, required: vec![3, 6, 12], forbidden: vec![9], number: 7, year: 0, secret: vec![1234, 5], random: vec![5, 7, 1, 1] };
    let mut faulty = words_of(&blocks(&d, 2)[0]);
    assert_eq!(faulty[..7], [1987, 7, 2, 4, 3, 2, 1]);
    faulty[7] += 1;
    let right = |words: &[u16; 256], i: usize, value: u16| {
        let mut words = *words;
        words[i - 1] = value;
        check(&words) == words[255]
    };
    for lost in (1..=256).filter(|lost| *lost != 8) {
        let mut words = faulty;
        words[lost - 1] = 32767;
        let (mut pile, mut list) = (bytes_of(&words), [9; 2]);
        let said = unit::salvage(&mut pile, &mut list);
        if [2, 4, 9, 24, 256].contains(&lost) {
            words[lost - 1] = match lost {
                2 => 3,
                4 => 2,
                _ => (0..=32748).find(|value| right(&faulty, lost, *value)).unwrap(),
            };
            assert_eq!((said, list), (Ok(1), [1, lost as u16]), "word {lost}");
        } else {
            assert_eq!((said, list), (Ok(0), [9; 2]), "word {lost}");
        }
        assert!(pile == bytes_of(&words), "word {lost}");
    }
}

#[test]
fn too_few_places() {
    let mut lost = three();
    with_word(&mut lost[..BLOCK], 8, 32767, false);
    for numbers in 0..6 {
        let (mut pile, mut list) = (lost.clone(), vec![9; numbers]);
        assert_eq!(unit::salvage(&mut pile, &mut list), refused(12, 3, 0), "{numbers} numbers");
        assert!(pile == lost && list == vec![9; numbers]);
    }
    for numbers in [6, 7, 8, 1120] {
        let (mut pile, mut list) = (lost.clone(), vec![9; numbers]);
        assert_eq!(unit::salvage(&mut pile, &mut list), Ok(1), "{numbers} numbers");
        assert!(pile == three() && list[..2] == [1, 8] && list[2..].iter().all(|number| *number == 9));
    }
    assert_eq!(unit::salvage(&mut [], &mut []), Ok(0));
}

#[test]
fn blocks_560_and_561() {
    let good: Vec<u8> = (0..561).flat_map(|at| three()[at % 3 * BLOCK..][..BLOCK].to_vec()).collect();
    let mut lost = good.clone();
    for block in lost.chunks_exact_mut(BLOCK) {
        with_word(block, 8, 32767, false);
    }
    for length in [1, 511, 513, 561 * BLOCK - 1] {
        let (mut pile, mut list) = (lost[..length].to_vec(), vec![]);
        assert_eq!(unit::salvage(&mut pile, &mut list), refused(13, 0, 0));
        assert!(pile == lost[..length]);
    }
    let (mut pile, mut list) = (lost.clone(), vec![9; 1119]);
    assert_eq!(unit::salvage(&mut pile, &mut list), refused(14, 0, 0));
    assert!(pile == lost && list == vec![9; 1119]);
    let (mut pile, mut list) = (lost[..560 * BLOCK].to_vec(), vec![9; 1119]);
    assert_eq!(unit::salvage(&mut pile, &mut list), refused(12, 560, 0));
    assert!(pile == lost[..560 * BLOCK] && list == vec![9; 1119]);
    let (mut pile, mut list) = (lost[..560 * BLOCK].to_vec(), vec![9; 1121]);
    assert_eq!(unit::salvage(&mut pile, &mut list), Ok(560));
    assert!(pile == good[..560 * BLOCK]);
    assert!(list[..1120].chunks(2).enumerate().all(|(at, place)| *place == [at as u16 + 1, 8]) && list[1120] == 9);
}
