//! Whole renewals by the library, its sums of two deals block for block: the new cards, every group that joins them, and old and new cards together.
use bench::inputs;
use bench::met::Kinds;
use bench::numbers::Numbers;
use bench::pairs::{another, beside, sum};
use bench::reference::{self, Deal, Refusal, BLOCK};
use bench::unit;
use std::collections::BTreeSet;

/// Each holder's card: the blocks of two cards added, by the library, which the independent implementation must equal.
fn added_cards(one: &Deal, two: &Deal, new: (usize, usize)) -> Vec<Vec<u8>> {
    let cards = (1..=one.people).map(|holder| {
        let (a, b) = (inputs::card(one, holder), inputs::card(two, holder));
        assert_eq!(a.len(), b.len());
        a.chunks(BLOCK).zip(b.chunks(BLOCK)).flat_map(|(x, y)| sum(x, y, new)).collect()
    });
    cards.collect()
}

/// The cards of a group.
fn gathered(cards: &[Vec<u8>], group: u16) -> Vec<u8> {
    (0..cards.len()).filter(|i| group >> i & 1 == 1).flat_map(|i| cards[i].clone()).collect()
}

/// A deal of up to six people.
fn up_to_six(n: &mut Numbers) -> Deal {
    loop {
        let d = inputs::good_deal(n);
        if d.people <= 6 {
            return d;
        }
    }
}

/// A pile of a group's cards joins to this secret where a required set is among the group, and else is SHORT.
fn joins(kinds: &mut Kinds, d: &Deal, cards: &[Vec<u8>], group: u16, secret: &[u16]) {
    let pile = gathered(cards, group);
    let k = reference::plan(d.people, &d.required, &d.forbidden).unwrap().len();
    let pieces: BTreeSet<u8> = pile.chunks(BLOCK).map(|block| block[13]).collect();
    for join in unit::JOINERS {
        let mut out = [9; 16];
        let said = join(&pile, &mut out);
        let mut want = [9; 16];
        if d.required.iter().any(|set| set & !group == 0) {
            want[..secret.len()].copy_from_slice(secret);
            assert_eq!((said, out), (Ok(secret.len()), want), "{d:?} {group}");
            kinds.note("a group that opens");
        } else {
            let b = if pieces.is_empty() { 0 } else { k };
            assert_eq!((said, out), (Err(Refusal { number: 20, a: pieces.len(), b }), want), "{d:?} {group}");
            kinds.note("a group that does not");
        }
    }
}

/// Every block of a deal and of a deal of zeros added under a new number and year: the cards are those of the old secret with the randomness added; all
/// groups join them as they did the old ones, and old and new together nobody.
#[test]
fn renewals() {
    let mut n = Numbers::new(53);
    let mut kinds = Kinds::default();
    for _ in 0..300 {
        let d = up_to_six(&mut n);
        let z = beside(&mut n, &d, true);
        let new = another(&mut n, &[(d.number, d.year), (z.number, z.year)]);
        if new.0 == d.number {
            kinds.note("renewed under the old number, in another year");
        }
        let cards = added_cards(&d, &z, new);
        let random = d.random.iter().zip(&z.random).map(|(r, s)| ((*r as u32 + *s as u32) % 32749) as u16).collect();
        let renewed = Deal { number: new.0, year: new.1, random, ..d.clone() };
        assert!((1..=d.people).all(|holder| cards[holder - 1] == inputs::card(&renewed, holder)), "{d:?} {z:?} {new:?}");
        let old: Vec<Vec<u8>> = (1..=d.people).map(|holder| inputs::card(&d, holder)).collect();
        for group in 0..1u16 << d.people {
            joins(&mut kinds, &d, &cards, group, &d.secret);
            // old cards of the one group, new ones of another, in either order
            let others = n.below(1 << d.people) as u16;
            let (a, b) = (gathered(&old, group), gathered(&cards, others));
            if a.is_empty() || b.is_empty() {
                continue;
            }
            for pile in [[a.clone(), b.clone()].concat(), [b.clone(), a.clone()].concat()] {
                let (x, y) = (a.len() / BLOCK, b.len() / BLOCK);
                // the larger heap is taken to be the pile's, of two that are equal that which begins first
                let first = if pile[..BLOCK] == a[..BLOCK] { (x, y) } else { (y, x) };
                let place = if first.1 > first.0 { 1 } else { first.0 + 1 };
                let mut out = [9; 16];
                assert_eq!((unit::join(&pile, &mut out), out), (Err(Refusal { number: 18, a: place, b: 0 }), [9; 16]));
                kinds.note("old and new together");
            }
        }
    }
    kinds.shows(&["a group that opens", "a group that does not", "old and new together"], 1000);
    kinds.shows(&["renewed under the old number, in another year"], 30);
}

/// Two deals of any secrets: the sums join to the sum of the secrets.
#[test]
fn sums_of_secrets() {
    let mut n = Numbers::new(54);
    let mut kinds = Kinds::default();
    for _ in 0..300 {
        let d = up_to_six(&mut n);
        let two = beside(&mut n, &d, false);
        let new = another(&mut n, &[(d.number, d.year), (two.number, two.year)]);
        let cards = added_cards(&d, &two, new);
        let secret: Vec<u16> = d.secret.iter().zip(&two.secret).map(|(x, y)| ((*x as u32 + *y as u32) % 32749) as u16).collect();
        for _ in 0..8 {
            let group = n.below(1 << d.people) as u16;
            joins(&mut kinds, &d, &cards, group, &secret);
        }
    }
    kinds.shows(&["a group that opens", "a group that does not"], 200);
}
