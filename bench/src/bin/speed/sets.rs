//! Cards by sets: dealing them, and joining piles of them.
use crate::deals::{random, threshold};
use crate::piles::join;
use crate::timing::compare;
use bench::reference::{self, bytes_of, set_words, Deal, Refusal, BLOCK};
use bench::{sets, unit};
use std::hint::black_box;

/// A deal of 16 words, by a policy that any so many of so many people open, with the randomness that sets take.
fn by_sets(people: usize, least: u32) -> Deal {
    let d = threshold(people, least);
    Deal { random: random(16 * sets::coefficients(&d)), ..d }
}

fn deal(name: &str, d: &Deal, holder: usize) {
    let (mut ours, mut theirs) = (vec![0; 35 * BLOCK], vec![0; 35 * BLOCK]);
    compare(
        name,
        || {
            black_box(unit::deal_by_sets(black_box(d), holder, &mut ours)).ok();
        },
        || {
            black_box(reference::deal_by_sets(black_box(d), holder, &mut theirs)).ok();
        },
    );
    assert_eq!(ours, theirs);
}

/// Piles in which one set alone is complete, the last, so that all others are looked at before it; and with everything in them.
pub fn by_sets_piles() {
    let d = by_sets(8, 4);
    deal("dealing by sets a card of 35 blocks of 16 words, 70 sets", &d, 3);
    deal("dealing by sets a card of 1 block of 16 words, one set of 8", &by_sets(8, 8), 3);
    let everything = sets::blocks(&d, 255).concat();
    join("joining 280 blocks of 70 sets", &everything);
    join("joining 560 blocks of 70 sets", &[&everything[..], &everything].concat());
    // four people have the last of the 70 sets, {5, 6, 7, 8}, and no other, complete
    join("joining 140 blocks, set 70 alone complete", &sets::blocks(&d, 0xf0).concat());
    join("joining 2 blocks of one set", &sets::blocks(&by_sets(2, 2), 3).concat());
    let short = sets::blocks(&d, 0x70).concat();
    assert_eq!(unit::join(&short, &mut [0; 16]), Err(Refusal { number: 20, a: 0, b: 0 }));
    join("refusing 105 blocks, no set complete", &short);
    // a conflict in the last of 560 blocks, of one set: of the values of a piece that is there, and of its members
    let of_set = |k: u16, value: u16| bytes_of(&set_words([1988, 7, 1, 8, k, 1, 1], &[value], 2026, 1));
    for (name, last) in [("values", of_set(2, 6)), ("members", of_set(3, 5))] {
        let pile = [of_set(2, 5).repeat(559), last.to_vec()].concat();
        assert_eq!(unit::join(&pile, &mut [0; 16]), Err(Refusal { number: 19, a: 560, b: 1 }));
        join(&format!("refusing 560 blocks of one set, the last of unlike {name}"), &pile);
    }
}
