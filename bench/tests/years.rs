//! The year of a deal, word 24 of a block, on the library and on the independent implementation: the layout for each number of words, dealing in
//! every kind of year, piles of two years, and cards of the layout before there was a year. What is expected is written here, from SCOPE.
use bench::cards::{deal_of, example_1};
use bench::inputs::{self, blocks, with_word};
use bench::met::Kinds;
use bench::numbers::Numbers;
use bench::reference::{self, block_words, bytes_of, check, held, piece, plan, words_of, Deal, Refusal, BLOCK};
use bench::unit;

fn refused<T>(number: usize, a: usize, b: usize) -> Result<T, Refusal> {
    Err(Refusal { number, a, b })
}

/// A block of w words, of deal 7: holder 2 of 4, the only piece.
fn block(w: usize, year: u16) -> Vec<u8> {
    let values: Vec<u16> = (1..=w as u16).map(|i| 2000 * i).collect();
    bytes_of(&block_words([1987, 7, 2, 4, 1, w as u16, 1], &values, year)).to_vec()
}

/// Each call that reads blocks says this of the block, none of them with a word written; or it passes, and joins to its values, since it is the
/// only piece.
fn read(block: &[u8], want: Result<(), (usize, usize)>) {
    let w = words_of(block)[5] as usize;
    let values = words_of(block)[7..7 + w].to_vec();
    let all = |a: usize| want.map_err(|(number, b)| Refusal { number, a, b });
    let mut head = [9; 7];
    assert_eq!(unit::open(block, &mut head), all(1).map(|()| 7));
    assert_eq!(reference::open(block).map(|_| ()), all(1));
    assert_eq!(head, if want.is_ok() { <[u16; 7]>::try_from(&words_of(block)[..7]).unwrap() } else { [9; 7] });
    let first = [block, block].concat();
    let mut second = first.clone();
    second[..BLOCK].copy_from_slice(&bytes_of(&block_words([1987, 7, 2, 4, 1, w as u16, 1], &values, words_of(block)[23].min(32748))));
    for (pile, a) in [(&first, 1), (&second, 2)] {
        for join in unit::JOINERS.into_iter().chain([reference::join as fn(&_, &mut _) -> _]) {
            let mut out = vec![9; 16];
            assert_eq!(join(pile, &mut out), all(a).map(|()| w));
            assert!(out == if want.is_ok() { [&values[..], &[9; 16][w..]].concat() } else { vec![9; 16] });
        }
    }
    let good = &second[..BLOCK];
    for add in [unit::add, reference::add] {
        let mut out = vec![9; BLOCK];
        assert_eq!(add(block, good, 9, 1, &mut out), all(1).map(|()| 1));
        assert_eq!(add(good, block, 9, 1, &mut out), all(2).map(|()| 1));
    }
}

#[test]
fn the_layout_for_each_number_of_words() {
    for w in 1..=16 {
        for year in [0, 1, 255, 256, 2026, 32748] {
            let good = block(w, year);
            read(&good, Ok(()));
            // set under a right check, or under the one that was there
            for other in [0, 1, 2026, 32748].into_iter().filter(|other| *other != year) {
                let mut set = good.clone();
                with_word(&mut set, 24, other, true);
                read(&set, Ok(()));
                assert!(set == block(w, other));
                with_word(&mut set, 24, year, false);
                read(&set, Err((16, 0)));
            }
            for slot in [32749, 32767, 32768, 65535] {
                let mut dirty = good.clone();
                with_word(&mut dirty, 24, slot, false);
                read(&dirty, Err((15, 24)));
                let mut list = [9; 2];
                assert_eq!(unit::salvage(&mut dirty, &mut list), Ok(1));
                assert!(dirty == good && list == [1, 24]);
            }
            // every other word behind the values is 0: words 23 and 25 beside the year too, but that 23 is a value of sixteen
            for i in 8 + w..=255 {
                for value in [1, 2026, 32748] {
                    let mut wrong = good.clone();
                    with_word(&mut wrong, i, value, true);
                    read(&wrong, if i == 24 { Ok(()) } else { Err((17, i)) });
                }
            }
            let mut both = good.clone();
            with_word(&mut both, 23, 1, true);
            with_word(&mut both, 25, 1, true);
            read(&both, Err((17, if w == 16 { 25 } else { 23 })));
            let mut value = good.clone();
            with_word(&mut value, 23, 2026, true);
            read(&value, if w == 16 { Ok(()) } else { Err((17, 23)) });
        }
    }
}

/// A word that was read wrong, and the year lost: it comes back as what the check leaves, any year at all, and the block passes.
#[test]
fn the_year_salvaged_to_any_value() {
    let mut n = Numbers::new(61);
    let mut kinds = Kinds::default();
    for _ in 0..20_000 {
        let w = 1 + n.below(16);
        let (was, i) = (inputs::year(&mut n) as u16, 8 + n.below(w));
        let mut lost = block(w, was);
        with_word(&mut lost, i, n.word(), false);
        with_word(&mut lost, 24, 32749 + n.below(32787) as u16, false);
        let (mut theirs, mut list, mut their_list) = (lost.clone(), [9; 2], [9; 2]);
        assert_eq!(unit::salvage(&mut lost, &mut list), Ok(1));
        assert_eq!(reference::salvage(&mut theirs, &mut their_list), Ok(1));
        assert!(lost == theirs && list == [1, 24] && list == their_list);
        let words = words_of(&lost);
        assert_eq!(check(&words), words[255]);
        assert_eq!(unit::open(&lost, &mut [0; 7]), Ok(7));
        kinds.note(if words[23] == was { "the year that it was" } else { "another year" });
        kinds.note(format!("w = {w}"));
    }
    kinds.shows(&["another year", "w = 1", "w = 16"], 1000);
}

/// Dealing words, and dealing a key.
type Dealers = (fn(&Deal, usize, &mut [u8]) -> Result<usize, Refusal>, fn(&Deal, &[u8], usize, &mut [u8]) -> Result<usize, Refusal>);
const DEALERS: [Dealers; 2] = [(unit::deal, unit::deal_key), (reference::deal, reference::deal_key)];

const GOOD: [usize; 7] = [0, 1, 255, 256, 2026, 32747, 32748];
const BAD: [usize; 9] = [32749, 32767, 32768, 65535, 65536, 65536 + 2026, 1 << 32, 1 << 40, usize::MAX];

#[test]
fn deals_in_every_kind_of_year() {
    let key: [u8; 16] = std::array::from_fn(|i| (i * 37 + 200) as u8);
    let words = reference::pack(&key).unwrap();
    let d = deal_of(6, example_1(), (7, 0), &words, 62);
    for (deal, deal_key) in DEALERS {
        let said = |d: &Deal, holder: usize, room: usize| {
            let mut out = vec![9; room];
            let said = deal(d, holder, &mut out);
            assert!(said.is_ok() || out.iter().all(|byte| *byte == 9));
            (said, out)
        };
        let by_key = |d: &Deal, holder: usize, room: usize| {
            let mut out = vec![9; room];
            let said = deal_key(d, &key, holder, &mut out);
            (said, out)
        };
        for holder in 1..=6 {
            let (count, undated) = said(&d, holder, 8 * BLOCK);
            let count = count.unwrap();
            for year in GOOD {
                let dated = Deal { year, ..d.clone() };
                let (again, card) = said(&dated, holder, 8 * BLOCK);
                assert_eq!(again, Ok(count));
                assert!(by_key(&dated, holder, 8 * BLOCK) == (again, card.clone()));
                assert!(card[count * BLOCK..].iter().all(|byte| *byte == 9));
                for (old, new) in undated.chunks(BLOCK).zip(card.chunks(BLOCK)).take(count) {
                    let mut want = words_of(old);
                    want[23] = year as u16;
                    want[255] = ((want[255] as usize + 24 * year) % 32749) as u16;
                    assert_eq!(words_of(new), want);
                }
            }
        }
        // behind DEAL, and before HOLDER and all that follows
        for year in BAD {
            let bad = Deal { year, ..d.clone() };
            for (holder, room) in [(1, 8 * BLOCK), (0, 8 * BLOCK), (7, 0), (1, 0)] {
                for secret in [words.to_vec(), vec![], vec![32749; 17]] {
                    assert_eq!(said(&Deal { secret: secret.clone(), ..bad.clone() }, holder, room).0, refused(25, 0, 0));
                    for number in [0, 32749, 1 << 40] {
                        assert_eq!(said(&Deal { number, secret: secret.clone(), ..bad.clone() }, holder, room).0, refused(8, 0, 0));
                    }
                }
                assert_eq!(by_key(&bad, holder, room), (refused(25, 0, 0), vec![9; room]));
                assert_eq!(by_key(&Deal { number: 0, ..bad.clone() }, holder, room).0, refused(8, 0, 0));
                let policy = Deal { required: vec![1], ..bad.clone() };
                assert_eq!(said(&policy, holder, room).0, refused(22, 1, 0));
                assert_eq!(by_key(&policy, holder, room).0, refused(22, 1, 0));
            }
        }
    }
}

const MET: [&str; 7] = [
    "MIXED, of year 0 and another",
    "MIXED, of two other years",
    "MIXED, by the low byte alone",
    "MIXED, by the high byte alone",
    "MIXED, block 1 is named",
    "MIXED, a later block is named",
    "one year, and the secret",
];

/// One deal written in two years, the pieces the same: whoever has cards of both has nothing, though without the year they would join.
#[test]
fn piles_of_two_years() {
    let mut n = Numbers::new(63);
    let mut kinds = Kinds::default();
    for _ in 0..5_000 {
        let d = inputs::good_deal(&mut n);
        let year = match n.below(4) {
            0 => d.year ^ (1 << n.below(8)),
            1 => d.year ^ (256 << n.below(7)),
            _ => inputs::year(&mut n),
        };
        if year == d.year || year > 32748 {
            continue;
        }
        let other = Deal { year, ..d.clone() };
        let everybody = (1 << d.people) - 1;
        for group in [everybody, n.below(everybody + 1), n.below(everybody + 1)] {
            let mut pile = [blocks(&d, group), blocks(&other, everybody & !group)].concat();
            if n.once_in(2) {
                n.shuffle(&mut pile);
            }
            let years: Vec<usize> = pile.iter().map(|block| words_of(block)[23] as usize).collect();
            let pile = pile.concat();
            let mut theirs = [9; 16];
            let expected = reference::join(&pile, &mut theirs);
            for join in unit::JOINERS {
                let mut ours = [9; 16];
                assert_eq!((join(&pile, &mut ours), ours), (expected, theirs), "{d:?} {year}");
            }
            if years.iter().all(|year| *year == years[0]) {
                assert_eq!((expected, &theirs[..d.secret.len()]), (Ok(d.secret.len()), &d.secret[..]));
                kinds.note("one year, and the secret");
                continue;
            }
            let first = years.iter().filter(|year| **year == years[0]).count();
            let own = if 2 * first >= years.len() { years[0] } else { years.iter().copied().find(|year| *year != years[0]).unwrap() };
            let a = 1 + years.iter().position(|year| *year != own).unwrap();
            assert_eq!((expected, theirs), (refused(18, a, 0), [9; 16]), "{d:?} {year}");
            kinds.note(if d.year == 0 || year == 0 { "MIXED, of year 0 and another" } else { "MIXED, of two other years" });
            kinds.note(if a == 1 { "MIXED, block 1 is named" } else { "MIXED, a later block is named" });
            if d.year / 256 == year / 256 {
                kinds.note("MIXED, by the low byte alone");
            }
            if d.year % 256 == year % 256 {
                kinds.note("MIXED, by the high byte alone");
            }
        }
    }
    kinds.shows(&MET, 500);
}

/// A card as it was written before there was a year: words 1 to 7, the values, and nothing but zeros up to the check.
fn former(d: &Deal, holder: usize) -> Vec<u8> {
    let groups = plan(d.people, &d.required, &d.forbidden).unwrap();
    let (k, w) = (groups.len(), d.secret.len());
    let of_piece = |j: usize| {
        let mut words = vec![1987, d.number as u16, holder as u16, d.people as u16, k as u16, w as u16, j as u16];
        words.extend((0..w).map(|i| piece(d.secret[i], &d.random[i * (k - 1)..(i + 1) * (k - 1)], j)));
        words.resize(255, 0);
        let sum: usize = words.iter().enumerate().map(|(i, word)| (i + 1) * *word as usize).sum();
        words.push((sum % 32749) as u16);
        words.into_iter().flat_map(u16::to_be_bytes).collect::<Vec<u8>>()
    };
    held(&groups, holder).into_iter().flat_map(of_piece).collect()
}

/// Under year 0 the library writes these cards, byte for byte, and it joins them as it did, alone and with cards that it writes today.
#[test]
fn cards_of_the_former_layout() {
    let mut n = Numbers::new(64);
    let mut kinds = Kinds::default();
    for _ in 0..3_000 {
        let d = Deal { year: 0, ..inputs::good_deal(&mut n) };
        let mut pile = Vec::new();
        let group = n.below(1 << d.people) as u16;
        for holder in 1..=d.people {
            let mut out = vec![9; 36 * BLOCK];
            let count = unit::deal(&d, holder, &mut out).unwrap();
            assert!(out[..count * BLOCK] == former(&d, holder), "{d:?} {holder}");
            if group >> (holder - 1) & 1 == 1 {
                pile.extend(if n.once_in(2) { former(&d, holder) } else { out[..count * BLOCK].to_vec() });
            }
        }
        for join in unit::JOINERS {
            let (mut out, mut want) = ([9; 16], [9; 16]);
            let said = join(&pile, &mut out);
            if d.required.iter().any(|set| set & !group == 0) {
                want[..d.secret.len()].copy_from_slice(&d.secret);
                assert_eq!((said, out), (Ok(d.secret.len()), want));
                kinds.note("the secret");
            } else {
                assert!(matches!(said, Err(Refusal { number: 20, .. })) && out == want);
                kinds.note("SHORT");
            }
        }
        // an earlier card among those of 2026
        let dated = Deal { year: 2026, ..d.clone() };
        let (old, new) = (former(&d, 1), blocks(&dated, (1 << d.people) - 2).concat());
        if !old.is_empty() && new.len() > old.len() {
            assert_eq!(unit::join(&[old, new].concat(), &mut [0; 16]), refused(18, 1, 0));
            kinds.note("MIXED with a card of 2026");
        }
    }
    kinds.shows(&["the secret", "SHORT", "MIXED with a card of 2026"], 1000);
}
