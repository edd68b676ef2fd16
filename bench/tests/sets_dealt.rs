//! Dealing by sets, on the independent implementation and on the library: worked figures, source 003's Example 1, the layout, refusals. What is expected
//! is written here, from SCOPE and the source.
use bench::both::{Calls, Said};
use bench::cards::example_1;
use bench::inputs::with_word;
use bench::on_both;
use bench::reference::{self, words_of, Deal, Refusal, BLOCK};

on_both! {
    p1_by_sets groups_of_p1 example_1_of_003 any_four_of_eight all_eight_of_eight what_is_no_set refused_deals the_layout
}

fn refused<T>(number: usize, a: usize, b: usize) -> Result<T, Refusal> {
    Err(Refusal { number, a, b })
}

/// P1's policy and P11's number and word, by sets: the sets are {1, 2}, {2, 3} and {3, 4}, and each has one coefficient.
fn p1() -> Deal {
    Deal { people: 4, required: vec![3, 6, 12], forbidden: vec![9], number: 7, year: 0, secret: vec![1234], random: vec![5, 7, 9] }
}

/// Pieces 1 and 2 of 1234 with coefficient 5 are 1239 and 1244, with 7 they are 1241 and 1248, with 9 they are 1243 and 1252. Each check is the sum that
/// SCOPE 4 has; of holder 1's block 1988 + 14 + 3 + 16 + 10 + 6 + 7 + 8 · 1239 + 25, which is 11981.
fn p1_by_sets(calls: &Calls) {
    let due: [(usize, &[(u16, u16, u16, u16)]); 4] = [
        (1, &[(1, 1, 1239, 11981)]),
        (2, &[(1, 2, 1244, 12031), (2, 1, 1241, 12025)]),
        (3, &[(2, 2, 1248, 12091), (3, 1, 1243, 12069)]),
        (4, &[(3, 2, 1252, 12151)]),
    ];
    for (holder, blocks) in due {
        let card = calls.card(&p1(), holder);
        assert_eq!(card.len(), blocks.len() * BLOCK);
        for (bytes, (set, piece, value, check)) in card.chunks(BLOCK).zip(blocks) {
            let mut want = [0; 256];
            want[..8].copy_from_slice(&[1988, 7, holder as u16, 4, 2, 1, *piece, *value]);
            (want[24], want[255]) = (*set, *check);
            assert_eq!(words_of(bytes), want);
            assert_eq!((calls.open)(bytes), Ok([1988, 7, holder as u16, 4, 2, 1, *piece]));
        }
    }
    // in 2026 word 24 is the year, and the check has 24 · 2026 more
    let later = words_of(&calls.card(&Deal { year: 2026, ..p1() }, 1));
    assert_eq!((later[23], later[24], later[255]), (2026, 1, ((11981 + 48624) % 32749) as u16));
}

/// All groups of four: 1 with 2, 2 with 3 or 3 with 4 open, and no others do, of whom no counts are told.
fn groups_of_p1(calls: &Calls) {
    for group in 0..16 {
        let people: Vec<usize> = (1..=4).filter(|person| group >> (person - 1) & 1 == 1).collect();
        let mut pile = calls.cards(&p1(), &people);
        let opens = [3, 6, 12].iter().any(|set| set & !group == 0);
        for _ in 0..2 {
            match opens {
                true => calls.joins(&format!("{people:?}"), &pile, 3, Ok(1), &[1234]),
                false => calls.joins(&format!("{people:?}"), &pile, 3, refused(20, 0, 0), &[]),
            }
            // from the last block to the first, each twice
            pile = pile.chunks(BLOCK).rev().flat_map(|block| [block, block].concat()).collect();
        }
    }
}

/// Source 003's Example 1. Its table of shares, with A5 and A6 as sets 1 and 2 and A1 to A4 as sets 3 to 6, since sets come by rising number.
fn example_1_of_003(calls: &Calls) {
    assert_eq!(reference::sets(6, &example_1()), [31, 47, 51, 54, 58, 60]);
    let shares: [&[(u16, u16)]; 6] = [
        &[(1, 1), (2, 1), (3, 1)],
        &[(1, 2), (2, 2), (3, 2), (4, 1), (5, 1)],
        &[(1, 3), (2, 3), (4, 2), (6, 1)],
        &[(1, 4), (2, 4), (5, 2), (6, 2)],
        &[(1, 5), (3, 3), (4, 3), (5, 3), (6, 3)],
        &[(2, 5), (3, 4), (4, 4), (5, 4), (6, 4)],
    ];
    // 4, 4, 3, 3, 3 and 3 coefficients make 20 for each of two words
    let random: Vec<u16> = (0..40).map(|i| 100 + i * i).collect();
    let d = Deal { people: 6, required: example_1(), forbidden: vec![], number: 1988, year: 2026, secret: vec![4711, 815], random };
    let members = [5, 5, 4, 4, 4, 4];
    for (person, shares) in shares.iter().enumerate() {
        let card = calls.card(&d, person + 1);
        assert_eq!(card.len() / BLOCK, [3, 5, 4, 4, 5, 5][person]);
        let of = |block: &[u8]| (words_of(block)[24], words_of(block)[6], words_of(block)[4]);
        let due: Vec<_> = shares.iter().map(|(set, piece)| (*set, *piece, members[*set as usize - 1])).collect();
        assert_eq!(card.chunks(BLOCK).map(of).collect::<Vec<_>>(), due);
    }
    // piece 1 is the word and its coefficients, added: of set 3 those of word 1 are 100 + 16², .., 100 + 18², of word 2 100 + 19², .., 100 + 21²
    let words = words_of(&calls.card(&d, 1)[2 * BLOCK..]);
    assert_eq!(words[7..9], [4711 + 300 + 256 + 289 + 324, 815 + 300 + 361 + 400 + 441]);
    for count in [0, 20, 39, 41, 60] {
        let wrong = Deal { random: vec![0; count], ..d.clone() };
        assert_eq!((calls.deal_by_sets)(&wrong, 1, &mut [9; 3 * BLOCK]), refused(11, 0, 0));
    }
    for group in 0..64u16 {
        let people: Vec<usize> = (1..=6).filter(|person| group >> (person - 1) & 1 == 1).collect();
        let pile = calls.cards(&d, &people);
        match example_1().iter().any(|need| need & !group == 0) {
            true => calls.joins(&format!("{people:?}"), &pile, 2, Ok(2), &[4711, 815]),
            false => calls.joins(&format!("{people:?}"), &pile, 2, refused(20, 0, 0), &[]),
        }
    }
}

/// 70 sets of 210 coefficients, 35 of them for each person; four people have one of them complete, in whichever place, and three have none.
fn any_four_of_eight(calls: &Calls) {
    let fours: Vec<u16> = (0..256).filter(|set: &u16| set.count_ones() == 4).collect();
    assert_eq!(reference::sets(8, &fours), fours);
    assert_eq!(fours.len(), 70);
    let random: Vec<u16> = (0..210).map(|i| i * 151 % 32749).collect();
    let d = Deal { people: 8, required: fours.clone(), forbidden: vec![], number: 7, year: 1, secret: vec![31999], random };
    let all: Vec<Vec<u8>> = (1..=8).map(|person| calls.card(&d, person)).collect();
    assert!(all.iter().all(|card| card.len() == 35 * BLOCK));
    let mut short = vec![9; 35 * BLOCK - 1];
    assert_eq!((calls.deal_by_sets)(&d, 5, &mut short), refused(12, 35, 0));
    assert!(short.iter().all(|byte| *byte == 9));
    let pile = |set: u16| (0..8).filter(|person| set >> person & 1 == 1).flat_map(|person| all[person].clone()).collect::<Vec<u8>>();
    for (at, four) in fours.iter().enumerate() {
        let pile = pile(*four);
        assert_eq!(pile.len(), 140 * BLOCK);
        calls.joins("four", &pile, 1, Ok(1), &[31999]);
        let alone: Vec<u8> = pile.chunks(BLOCK).filter(|block| words_of(block)[24] == at as u16 + 1).flatten().copied().collect();
        assert_eq!(alone.len(), 4 * BLOCK);
        calls.joins("one set", &alone, 1, Ok(1), &[31999]);
        calls.joins("three of them", &pile[..105 * BLOCK], 1, refused(20, 0, 0), &[]);
    }
    calls.joins("everybody, twice", &[pile(255), pile(255)].concat(), 1, Ok(1), &[31999]);
}

/// One set, of eight pieces, one for each person by their numbers, and 7 coefficients a word.
fn all_eight_of_eight(calls: &Calls) {
    assert_eq!(reference::sets(8, &[255]), [255]);
    let d = Deal { people: 8, required: vec![255], forbidden: vec![], number: 7, year: 0, secret: vec![1, 2], random: vec![3; 14] };
    for person in 1..=8 {
        let words = words_of(&calls.card(&d, person));
        assert_eq!((words[4], words[6], words[24]), (8, person as u16, 1));
    }
    calls.joins("all eight", &calls.cards(&d, &[8, 7, 6, 5, 4, 3, 2, 1]), 4, Ok(2), &[1, 2]);
    calls.joins("all but one", &calls.cards(&d, &[8, 7, 6, 4, 3, 2, 1]), 4, refused(20, 0, 0), &[]);
}

/// A set twice, or around another, is no set; who is in none has no block. Pieces go by rising number: of {1, 2} person 1 has piece 1, whereas P3's has
/// piece 2 of the first scheme.
fn what_is_no_set(calls: &Calls) {
    let more = Deal { required: vec![14, 12, 3, 15, 3, 6, 7, 12], ..p1() };
    assert_eq!(reference::sets(4, &more.required), [3, 6, 12]);
    for holder in 1..=4 {
        assert!(calls.card(&more, holder) == calls.card(&p1(), holder));
    }
    let p3 = Deal { people: 3, required: vec![3], forbidden: vec![], random: vec![5], ..p1() };
    assert_eq!((calls.deal_by_sets)(&p3, 3, &mut []), Ok(0));
    assert_eq!(words_of(&calls.card(&p3, 1))[6..8], [1, 1239]);
    assert_eq!(words_of(&calls.card(&p3, 2))[6..8], [2, 1244]);
}

/// Every refusal of dealing, in its order: each next case has one fault fewer.
fn refused_deals(calls: &Calls) {
    let mut d = Deal { people: 0, required: vec![1; 257], forbidden: vec![16; 257], number: 0, year: 32749, secret: vec![], random: vec![] };
    let mut is = |change: fn(&mut Deal), holder: usize, room: usize, said: Said| {
        change(&mut d);
        let mut out = vec![9; room];
        assert_eq!((calls.deal_by_sets)(&d, holder, &mut out), said, "{d:?}");
        assert!(out.iter().all(|byte| *byte == 9));
    };
    is(|_| (), 0, 0, refused(1, 0, 0));
    is(|d| d.people = 4, 0, 0, refused(2, 1, 0));
    is(|d| d.required = vec![3, 16, 12], 0, 0, refused(2, 2, 0));
    is(|d| d.forbidden = vec![9, 16], 0, 0, refused(3, 1, 2));
    is(|d| d.required = vec![], 0, 0, refused(3, 2, 2));
    is(|d| d.forbidden = vec![9], 0, 0, refused(4, 0, 0));
    is(|d| d.required = vec![3, 1, 9, 0], 0, 0, refused(5, 4, 0));
    is(|d| d.required = vec![3, 1, 9, 4], 0, 0, refused(22, 2, 0));
    is(|d| d.required = vec![3, 6, 12, 9], 0, 0, refused(6, 4, 1));
    is(|d| d.required = vec![3, 6, 12], 0, 0, refused(8, 0, 0));
    is(|d| d.number = 7, 0, 0, refused(25, 0, 0));
    is(|d| d.year = 0, 0, 0, refused(9, 0, 0));
    is(|_| (), 5, 0, refused(9, 0, 0));
    is(|_| (), 2, 0, refused(10, 0, 0));
    is(|d| d.secret = vec![0; 17], 2, 0, refused(10, 0, 0));
    is(|d| d.secret = vec![1234, 32749, 40000], 2, 0, refused(10, 2, 0));
    is(|d| d.secret = vec![1234], 2, 0, refused(11, 0, 0));
    // what the first scheme would take, and a word too many
    is(|d| d.random = vec![5, 7], 2, 0, refused(11, 0, 0));
    is(|d| d.random = vec![5, 7, 9, 65535], 2, 0, refused(11, 0, 0));
    is(|d| d.random = vec![5, 7, 32749], 2, 0, refused(11, 3, 0));
    is(|d| d.random = vec![5, 7, 9], 2, 2 * BLOCK - 1, refused(12, 2, 0));
}

/// Word by word, each under a right check: the first wrong word. The block is holder 1's of {1, 2}; of each row the words are changed, and no others.
fn the_layout(calls: &Calls) {
    let true_block = calls.card(&p1(), 1);
    let is = |changes: &[(usize, u16)], said: Result<(), usize>| {
        let mut block = true_block.clone();
        for (i, value) in changes {
            with_word(&mut block, *i, *value, true);
        }
        let said = said.map_err(|b| Refusal { number: 17, a: 1, b });
        assert_eq!((calls.open)(&block).map(|_| ()), said, "{changes:?}");
        if let Err(refusal) = said {
            calls.joins(&format!("{changes:?}"), &[block, vec![255; BLOCK]].concat(), 1, Err(refusal), &[]);
        }
    };
    for mark in [0, 1, 1986, 1989, 19888, 32748] {
        is(&[(1, mark)], Err(1));
    }
    // k is at most n, and of 1987 at most 70
    for (n, k, said) in [(4, 0, Err(5)), (4, 1, Ok(())), (4, 4, Ok(())), (4, 5, Err(5)), (4, 70, Err(5)), (8, 8, Ok(())), (8, 9, Err(5)), (1, 1, Ok(())), (1, 2, Err(5))] {
        is(&[(4, n), (5, k)], said);
    }
    is(&[(1, 1987), (5, 70), (25, 0)], Ok(()));
    is(&[(1, 1987), (5, 71), (25, 0)], Err(5));
    is(&[(7, 0)], Err(7));
    is(&[(7, 3)], Err(7));
    is(&[(5, 4), (7, 4)], Ok(()));
    // the place of the set
    for (place, said) in [(0, Err(25)), (1, Ok(())), (2, Ok(())), (70, Ok(())), (71, Err(25)), (256, Err(25)), (257, Err(25)), (32748, Err(25))] {
        is(&[(25, place)], said);
    }
    is(&[(1, 1987)], Err(25));
    is(&[(1, 1987), (25, 70)], Err(25));
    is(&[(1, 1987), (25, 0)], Ok(()));
    // words are looked at by rising number
    is(&[(25, 0), (23, 1)], Err(23));
    is(&[(25, 0), (24, 32748)], Err(25));
    is(&[(25, 0), (26, 1)], Err(25));
    is(&[(25, 71), (5, 5)], Err(5));
    is(&[(24, 32748)], Ok(()));
    is(&[(26, 1)], Err(26));
    is(&[(255, 1)], Err(255));
    is(&[(9, 1)], Err(9));
    // with 16 words no word but the year is between the values and the set
    let sixteen: Vec<(usize, u16)> = (8..24).map(|i| (i, 32748)).chain([(6, 16)]).collect();
    is(&sixteen, Ok(()));
    is(&[&sixteen[..], &[(25, 0)]].concat(), Err(25));
}
