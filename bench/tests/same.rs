//! The proved library against the independent implementation: the same answers, and the same content of every lent buffer.
use bench::inputs;
use bench::met::Met;
use bench::numbers::Numbers;
use bench::reference::{self, Refusal, BLOCK};
use bench::unit;

#[test]
fn policies() {
    let mut n = Numbers::new(1);
    let mut met = Met::default();
    for _ in 0..100_000 {
        let (people, required, forbidden) = inputs::policy(&mut n);
        let before: [u16; 70] = std::array::from_fn(|_| n.next() as u16);
        let mut groups = before;
        let ours = unit::plan(people, &required, &forbidden, &mut groups);
        let theirs = reference::plan(people, &required, &forbidden);
        met.note(&theirs);
        let mut expected = before;
        if let Ok(theirs) = &theirs {
            expected[..theirs.len()].copy_from_slice(theirs);
        }
        assert_eq!(ours, theirs.map(|groups| groups.len()), "{people} {required:?} {forbidden:?}");
        assert_eq!(groups, expected, "{people} {required:?} {forbidden:?}");
    }
    met.shows(&[0, 1, 2, 3, 4, 5, 6, 22]);
}

#[test]
fn deals() {
    let mut n = Numbers::new(2);
    let mut met = Met::default();
    for _ in 0..20_000 {
        let mut d = inputs::good_deal(&mut n);
        let mut holder = 1 + n.below(d.people);
        if n.once_in(10) {
            let (people, required, forbidden) = inputs::policy(&mut n);
            (d.people, d.required, d.forbidden) = (people, required, forbidden);
        }
        if n.once_in(2) {
            inputs::spoil(&mut n, &mut d, &mut holder);
        }
        if n.once_in(10) {
            inputs::spoil(&mut n, &mut d, &mut holder);
        }
        let room = if n.once_in(4) { n.below(36 * BLOCK) } else { 36 * BLOCK };
        let before: Vec<u8> = (0..room).map(|_| n.next() as u8).collect();
        let (mut ours, mut theirs) = (before.clone(), before);
        let said = unit::deal(&d, holder, &mut ours);
        let expected = reference::deal(&d, holder, &mut theirs);
        met.note(&expected);
        assert_eq!(said, expected, "{d:?} {holder} {room}");
        assert!(ours == theirs, "the lent card differs: {d:?} {holder} {room}");
    }
    met.shows(&[0, 1, 2, 3, 4, 5, 6, 8, 9, 10, 11, 12, 22, 25]);
}

#[test]
fn piles() {
    let mut n = Numbers::new(3);
    let mut met = Met::default();
    for round in 0..10_000 {
        let d = inputs::good_deal(&mut n);
        let piles = if round % 100 == 0 { 1 } else { 11 };
        for _ in 0..piles {
            let pile = inputs::pile(&mut n, &d);
            let room = if n.once_in(4) { n.below(17) } else { 16 };
            let before: Vec<u16> = (0..room).map(|_| n.next() as u16).collect();
            let mut theirs = before.clone();
            let expected = reference::join(&pile, &mut theirs);
            met.note(&expected);
            for join in unit::JOINERS.into_iter().chain([reference::join_by_differences as fn(&_, &mut _) -> _]) {
                let mut ours = before.clone();
                assert_eq!(join(&pile, &mut ours), expected, "{d:?}");
                assert_eq!(ours, theirs, "{d:?}");
            }
            let before: [u16; 7] = std::array::from_fn(|_| n.next() as u16);
            let mut head = before;
            let said = unit::open(&pile, &mut head);
            let expected = reference::open(&pile);
            assert_eq!(said, expected.map(|_| 7), "{d:?}");
            assert_eq!(head, expected.unwrap_or(before), "{d:?}");
        }
    }
    met.shows(&[0, 12, 13, 14, 15, 16, 17, 18, 19, 20]);
}

/// Nobody opens alone: each person's card, twice and shuffled, of whatever deal is accepted.
#[test]
fn nobody_alone() {
    let mut n = Numbers::new(4);
    for _ in 0..2_000 {
        let d = inputs::good_deal(&mut n);
        for person in 0..d.people {
            let mut pile = inputs::blocks(&d, 1 << person);
            pile.extend(pile.clone());
            n.shuffle(&mut pile);
            let mut out = [9; 16];
            let said = unit::join(&pile.concat(), &mut out);
            assert!(matches!(said, Err(Refusal { number: 20, .. })), "{d:?} {person}: {said:?}");
            assert_eq!(out, [9; 16]);
        }
    }
}
