//! Cards by sets: the library against the independent implementation, answers and whole lent buffers. Deals; piles, good and damaged, through every call
//! that reads a pile; blocks that are added or handed in; scratched piles. And a count of what was met.
use bench::inputs;
use bench::met::{Kinds, Met};
use bench::numbers::Numbers;
use bench::reference::{self, Desk, Refusal, BLOCK};
use bench::scratched;
use bench::sets::{self, FAULTS, LAYOUT};
use bench::unit;

#[test]
fn deals() {
    let mut n = Numbers::new(71);
    let (mut met, mut kinds) = (Met::default(), Kinds::default());
    for _ in 0..20_000 {
        let good = inputs::good_deal(&mut n);
        let mut d = sets::by_sets(&mut n, &good);
        let mut holder = 1 + n.below(d.people);
        if n.once_in(10) {
            let (people, required, forbidden) = inputs::policy(&mut n);
            (d.people, d.required, d.forbidden) = (people, required, forbidden);
        }
        match n.below(8) {
            0..=3 => inputs::spoil(&mut n, &mut d, &mut holder),
            // as many as the first scheme takes; as one set more would take, or one fewer
            4 if n.once_in(4) => d.random = good.random.clone(),
            5 if n.once_in(4) => d.random.extend(vec![1; d.secret.len()]),
            6 if n.once_in(4) => d.random.truncate(d.random.len() - d.secret.len()),
            _ => (),
        }
        if n.once_in(10) {
            inputs::spoil(&mut n, &mut d, &mut holder);
        }
        let card = sets::card(&sets::by_sets(&mut n, &good), 1 + n.below(good.people)).len();
        let room = [36 * BLOCK, 36 * BLOCK, 36 * BLOCK, card, card.saturating_sub(1), n.below(36 * BLOCK)][n.below(6)];
        let before: Vec<u8> = (0..room).map(|_| n.next() as u8).collect();
        let (mut ours, mut theirs) = (before.clone(), before);
        let said = unit::deal_by_sets(&d, holder, &mut ours);
        let expected = reference::deal_by_sets(&d, holder, &mut theirs);
        met.note(&expected);
        assert_eq!(said, expected, "{d:?} {holder} {room}");
        assert!(ours == theirs, "the lent card differs: {d:?} {holder} {room}");
        if let Ok(blocks) = expected {
            kinds.note(match blocks {
                0 => "no block",
                1 => "one block",
                2..=9 => "up to nine blocks",
                35 => "35 blocks",
                _ => "more blocks",
            });
            if reference::sets(d.people, &d.required).len() < d.required.len() {
                kinds.note("fewer sets than are listed");
            }
        }
    }
    met.shows(&[0, 1, 2, 3, 4, 5, 6, 8, 9, 10, 11, 12, 22, 25]);
    kinds.shows(&["no block", "one block", "up to nine blocks", "more blocks", "35 blocks", "fewer sets than are listed"], 50);
}

/// What a pile was answered, and why.
fn describe(kinds: &mut Kinds, faults: &[&str], pile: &[u8], said: &Result<usize, Refusal>) {
    let number = said.as_ref().map_or_else(|refusal| refusal.number, |_| 0);
    if let [fault] = faults {
        kinds.note(format!("{fault}: {number}"));
    }
    let heads: Vec<[u16; 256]> = pile.chunks_exact(BLOCK).map(reference::words_of).collect();
    match said {
        Ok(_) => {
            let mut places: Vec<u16> = heads.iter().map(|words| words[24]).collect();
            places.sort();
            places.dedup();
            let whole = |set: &&u16| {
                let mut pieces: Vec<(u16, u16)> = heads.iter().filter(|words| words[24] == **set).map(|words| (words[6], words[4])).collect();
                pieces.sort();
                pieces.dedup();
                pieces.len() == pieces[0].1 as usize
            };
            let alone = |set: &u16| {
                let own: Vec<u8> = pile.chunks_exact(BLOCK).filter(|block| reference::words_of(block)[24] == *set).flatten().copied().collect();
                let mut words = [9; 16];
                reference::join(&own, &mut words).map(|_| words).expect("a complete set")
            };
            let secrets: Vec<[u16; 16]> = places.iter().filter(whole).map(alone).collect();
            kinds.note(if secrets.len() > 1 { "joined, of several complete sets" } else { "joined, of one complete set" });
            if secrets.iter().any(|words| *words != secrets[0]) {
                kinds.note("joined, of complete sets that disagree");
            }
            if !whole(&&places[0]) {
                kinds.note("joined, and not by the lowest set that is there");
            }
            if heads.iter().any(|words| words[5] == 16) {
                kinds.note("joined, 16 words");
            }
        }
        Err(Refusal { number: 17, b, .. }) => kinds.note(format!("17 at word {}", if *b > 25 { 26 } else { *b })),
        Err(Refusal { number: 18, a, .. }) => {
            let marks = [1987, 1988].map(|mark| heads.iter().filter(|words| words[0] == mark).count());
            kinds.note(match (marks[0] > 0 && marks[1] > 0, heads[a - 1][0]) {
                (true, 1987) => "18, of both marks: a 1987 block is named",
                (true, _) => "18, of both marks: a 1988 block is named",
                _ => "18, of one mark",
            });
        }
        Err(Refusal { number: 19, a, b }) => {
            let (later, earlier) = (&heads[a - 1], &heads[b - 1]);
            assert_eq!(later[24], earlier[24]);
            kinds.note(match (later[4] == earlier[4], later[6] == earlier[6]) {
                (true, _) => "19, by values",
                (false, true) => "19, by k, of one piece",
                (false, false) => "19, by k, of two pieces",
            });
        }
        Err(Refusal { number: 20, a, b }) => {
            if heads.iter().all(|words| words[0] == 1988) {
                assert_eq!((*a, *b), (0, 0));
                kinds.note("20, of 1988");
            }
        }
        _ => (),
    }
}

const MET: [&str; 21] = [
    "joined, of complete sets that disagree",
    "joined, of several complete sets",
    "joined, of one complete set",
    "joined, and not by the lowest set that is there",
    "joined, 16 words",
    "17 at word 1",
    "17 at word 5",
    "17 at word 7",
    "17 at word 25",
    "17 at word 26",
    "18, of both marks: a 1987 block is named",
    "18, of both marks: a 1988 block is named",
    "18, of one mark",
    "19, by values",
    "19, by k, of one piece",
    "19, by k, of two pieces",
    "20, of 1988",
    "no set: 17",
    "a set in another place: 0",
    "a set that gives another secret: 0",
    "first-scheme cards beside them: 18",
];

#[test]
fn piles() {
    let mut n = Numbers::new(72);
    let (mut met, mut kinds) = (Met::default(), Kinds::default());
    for _ in 0..10_000 {
        let d = inputs::good_deal(&mut n);
        let s = sets::by_sets(&mut n, &d);
        for _ in 0..10 {
            let (faults, pile) = sets::pile(&mut n, &d, &s);
            let room = if n.once_in(4) { n.below(17) } else { 16 };
            let before: Vec<u16> = (0..room).map(|_| n.next() as u16).collect();
            let mut theirs = before.clone();
            let expected = reference::join(&pile, &mut theirs);
            met.note(&expected);
            describe(&mut kinds, &faults, &pile, &expected);
            for join in unit::JOINERS.into_iter().chain([reference::join_by_differences as fn(&_, &mut _) -> _]) {
                let mut ours = before.clone();
                assert_eq!(join(&pile, &mut ours), expected, "{faults:?} {s:?}");
                assert_eq!(ours, theirs, "{faults:?} {s:?}");
            }
            let before: [u16; 7] = std::array::from_fn(|_| n.next() as u16);
            let mut head = before;
            let said = unit::open(&pile, &mut head);
            let expected = reference::open(&pile);
            assert_eq!(said, expected.map(|_| 7), "{faults:?} {s:?}");
            assert_eq!(head, expected.unwrap_or(before), "{faults:?} {s:?}");
            if n.once_in(4) {
                let (mut ours, mut theirs) = ([9; 17], [9; 17]);
                assert_eq!(unit::join_key(&pile, &mut ours), reference::join_key(&pile, &mut theirs), "{faults:?} {s:?}");
                assert_eq!(ours, theirs, "{faults:?} {s:?}");
            }
        }
    }
    met.shows(&[0, 12, 13, 14, 15, 16, 17, 18, 19, 20]);
    kinds.shows(&MET, 300);
    for fault in FAULTS {
        assert!(kinds.of(&format!("{fault}: ")) >= 300, "{fault}");
    }
}

/// Keys can be dealt by sets as their ten words, and a pile of them joins to the key.
#[test]
fn keys() {
    let mut n = Numbers::new(73);
    for _ in 0..1_000 {
        let key: [u8; 16] = std::array::from_fn(|_| n.next() as u8);
        let d = inputs::good_deal(&mut n);
        let d = reference::Deal { secret: reference::pack(&key).unwrap().to_vec(), ..d };
        let s = sets::by_sets(&mut n, &d);
        let set = reference::sets(s.people, &s.required)[0];
        let mut out = [9; 17];
        assert_eq!(unit::join_key(&sets::blocks(&s, set as usize).concat(), &mut out), Ok(16));
        assert_eq!((&out[..16], out[16]), (&key[..], 9));
    }
}

/// Adding and the desk take no block by sets: HEADER, word 1, once it could be read and its check is right, whatever else is wrong with it.
#[test]
fn not_added_and_not_handed_in() {
    let mut n = Numbers::new(74);
    let mut kinds = Kinds::default();
    for _ in 0..10_000 {
        let d = inputs::good_deal(&mut n);
        let s = sets::by_sets(&mut n, &d);
        let (firsts, seconds) = (inputs::blocks(&d, (1 << d.people) - 1), sets::blocks(&s, (1 << d.people) - 1));
        let first = firsts[n.below(firsts.len())].clone();
        let mut pile = vec![seconds[n.below(seconds.len())].clone()];
        if n.once_in(2) {
            let fault = FAULTS[n.below(LAYOUT + 5)];
            sets::damage(&mut n, &d, fault, &mut pile);
        }
        let second = pile[n.below(pile.len())].clone();
        let (one, two) = [(&first, &second), (&second, &first), (&second, &second)][n.below(3)];
        let (number, year) = (1 + n.below(32748), inputs::year(&mut n));
        let (mut ours, mut theirs) = ([9; BLOCK + 1], [9; BLOCK + 1]);
        let expected = reference::add(one, two, number, year, &mut theirs);
        assert_eq!(unit::add(one, two, number, year, &mut ours), expected);
        assert!(ours == theirs);
        kinds.note(format!("adding: {}", expected.map_or_else(|r| format!("{} at {}, word {}", r.number, r.a, r.b.min(2)), |_| "1".into())));
        // a desk that is open with what the block says, and one with what a block of the first scheme says
        for opening in [&first, &second] {
            let words = reference::words_of(opening);
            let opening = [2, 4, 5, 6, 24].map(|i| words[i - 1] as usize);
            let mut desk = Desk::fresh();
            if desk.open(1, opening).is_err() {
                continue;
            }
            let mut theirs = desk.clone();
            let expected = theirs.hand_in(1, &second);
            assert_eq!(unit::desk_hand_in(&mut desk, 1, &second), expected);
            assert!(desk == theirs);
            kinds.note(format!("handing in: {}", expected.map_or_else(|r| format!("{}, word {}", r.number, r.b.min(2)), |_| "1".into())));
        }
    }
    let met = ["adding: 17 at 1, word 1", "adding: 17 at 2, word 1", "adding: 15 at 1, word 2", "adding: 16 at 1, word 0"];
    kinds.shows(&met, 50);
    kinds.shows(&["handing in: 17, word 1", "handing in: 15, word 2", "handing in: 16, word 0"], 50);
}

/// Scratched piles by sets, mended as piles of the first scheme are; a block that lost one word and nothing else is that block again.
#[test]
fn scratched_piles() {
    let mut n = Numbers::new(75);
    let mut met = Met::default();
    for _ in 0..5_000 {
        let d = inputs::good_deal(&mut n);
        let s = sets::by_sets(&mut n, &d);
        let (good, lost, fates) = scratched::pile(&mut n, &sets::blocks(&s, (1 << s.people) - 1));
        let numbers = scratched::numbers(&mut n, lost.len() / BLOCK);
        let before: Vec<u16> = (0..numbers).map(|_| n.next() as u16).collect();
        let (mut ours, mut theirs) = (lost.clone(), lost.clone());
        let (mut list, mut their_list) = (before.clone(), before);
        let expected = reference::salvage(&mut theirs, &mut their_list);
        met.note(&expected);
        assert_eq!(unit::salvage(&mut ours, &mut list), expected, "{s:?}");
        assert!(ours == theirs && list == their_list, "{s:?}");
        if expected.is_ok() {
            for (at, fate) in fates.iter().enumerate().filter(|(_, fate)| **fate != scratched::Fate::Other) {
                let block = at * BLOCK..(at + 1) * BLOCK;
                assert!(ours[block.clone()] == good[block], "block {at} is not what it was, {}", *fate == scratched::Fate::Lost);
            }
        }
    }
    met.shows(&[0, 12, 13, 14]);
}
