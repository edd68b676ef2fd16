//! Salvage: the library against the independent implementation, the answer, the whole pile and the whole list; that what lost one word is as it
//! was; that a second salvage changes nothing; and a count of what was met.
use bench::inputs;
use bench::met::{Kinds, Met};
use bench::numbers::Numbers;
use bench::reference::{self, words_of, BLOCK};
use bench::scratched::{self, Fate};
use bench::unit;

const MET: [&str; 17] = [
    "a block without a dirty word",
    "a block with two dirty words or more",
    "word 1 to 7 rebuilt",
    "a value rebuilt",
    "a word of 0 rebuilt",
    "word 24 rebuilt, to 0",
    "word 24 rebuilt, to another year",
    "word 24 rebuilt, though another word was wrong",
    "word 255 rebuilt",
    "word 256 rebuilt",
    "put back, of words 1 to 7",
    "put back, of words 8 to 255",
    "put back, word 256",
    "rebuilt, though it was not good before",
    "a list with as many places as blocks",
    "a list with a number too few",
    "a pile that is good again, and joined",
];

/// What happened to a block.
fn describe(kinds: &mut Kinds, before: &[u8], after: &[u8], fate: Fate) {
    let (old, new) = (words_of(before), words_of(after));
    let dirty: Vec<usize> = (1..=256).filter(|i| old[i - 1] > 32748).collect();
    let [i] = dirty[..] else {
        assert_eq!(before, after);
        kinds.note(if dirty.is_empty() { "a block without a dirty word" } else { "a block with two dirty words or more" });
        return;
    };
    kinds.note(match (old == new, i) {
        (false, 1..=7) => "word 1 to 7 rebuilt",
        (false, 255) => "word 255 rebuilt",
        (false, 256) => "word 256 rebuilt",
        (false, 24) if new[23] == 0 => "word 24 rebuilt, to 0",
        (false, 24) => "word 24 rebuilt, to another year",
        (false, i) if i <= 7 + new[5] as usize => "a value rebuilt",
        (false, _) => "a word of 0 rebuilt",
        (true, 1..=7) => "put back, of words 1 to 7",
        (true, 256) => "put back, word 256",
        (true, _) => "put back, of words 8 to 255",
    });
    if old != new && fate == Fate::Other {
        kinds.note("rebuilt, though it was not good before");
        if i == 24 {
            kinds.note("word 24 rebuilt, though another word was wrong");
        }
    }
}

#[test]
fn scratched_piles() {
    let mut n = Numbers::new(41);
    let (mut met, mut kinds) = (Met::default(), Kinds::default());
    for _ in 0..10_000 {
        let d = inputs::good_deal(&mut n);
        let blocks = inputs::blocks(&d, (1 << d.people) - 1);
        for _ in 0..10 {
            let (good, lost, fates) = scratched::pile(&mut n, &blocks);
            let numbers = scratched::numbers(&mut n, lost.len() / BLOCK);
            let before: Vec<u16> = (0..numbers).map(|_| n.next() as u16).collect();
            let (mut pile, mut list) = (lost.clone(), before.clone());
            let (mut their_pile, mut their_list) = (lost.clone(), before.clone());
            let expected = reference::salvage(&mut their_pile, &mut their_list);
            met.note(&expected);
            assert_eq!(unit::salvage(&mut pile, &mut list), expected, "{numbers} numbers");
            assert!(pile == their_pile, "the pile differs, {numbers} numbers");
            assert_eq!(list, their_list);
            let Ok(count) = expected else {
                assert!(pile == lost && list == before, "a refusal wrote");
                if matches!(&expected, Err(r) if r.number == 12) && numbers + 1 == 2 * (lost.len() / BLOCK) {
                    kinds.note("a list with a number too few");
                }
                continue;
            };
            if numbers == 2 * (lost.len() / BLOCK) {
                kinds.note("a list with as many places as blocks");
            }
            for ((old, new), fate) in lost.chunks(BLOCK).zip(pile.chunks(BLOCK)).zip(&fates) {
                describe(&mut kinds, old, new, *fate);
            }
            // the number is that of the words that differ, and the list has their places
            let differ = lost.chunks(2).zip(pile.chunks(2)).enumerate().filter(|(_, (old, new))| old != new);
            let places: Vec<u16> = differ.flat_map(|(at, _)| [at / 256 + 1, at % 256 + 1]).map(|number| number as u16).collect();
            assert_eq!(2 * count, places.len());
            assert_eq!((&list[..2 * count], &list[2 * count..]), (&places[..], &before[2 * count..]));
            // a block that lost one word, or none, is as it was
            for ((new, was), fate) in pile.chunks(BLOCK).zip(good.chunks(BLOCK)).zip(&fates) {
                assert!(*fate == Fate::Other || new == was);
            }
            if fates.iter().all(|fate| *fate != Fate::Other) && fates.iter().any(|fate| *fate != Fate::Whole) {
                let (mut one, mut other) = ([9; 16], [9; 16]);
                assert_eq!(unit::join(&pile, &mut one), reference::join(&good, &mut other));
                assert_eq!(one, other);
                assert!(matches!(unit::join(&lost, &mut one), Err(r) if r.number == 15));
                kinds.note("a pile that is good again, and joined");
            }
            let (mut again, mut twice) = (pile.clone(), before.clone());
            assert_eq!(unit::salvage(&mut again, &mut twice), Ok(0));
            assert!(again == pile && twice == before);
        }
    }
    met.shows(&[0, 12, 13, 14]);
    kinds.shows(&MET, 1000);
}
