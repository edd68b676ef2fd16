//! Planning, judging, dealing, keys.
use crate::piles::pieces;
use crate::timing::compare;
use bench::reference::{self, own, Deal, Holdings, Verdict, BLOCK};
use bench::unit;
use std::hint::black_box;

/// 16 words.
pub fn secret() -> Vec<u16> {
    (0..16).map(|i| i * 2047 % 32749).collect()
}

/// So many words in the place of random ones.
pub fn random(count: usize) -> Vec<u16> {
    (0..count).map(|i| (i * 7919 % 32749) as u16).collect()
}

/// A deal of 16 words, by a policy that any so many of so many people open.
pub fn threshold(people: usize, least: u32) -> Deal {
    let required: Vec<u16> = (0..1u16 << people).filter(|set| set.count_ones() == least).collect();
    let k = reference::plan(people, &required, &[]).unwrap().len();
    Deal {
        people,
        required,
        forbidden: Vec::new(),
        number: 7,
        year: 2026,
        secret: secret(),
        random: random(16 * (k - 1)),
    }
}

/// Judging holding lists by any five of eight: our own, a piece each, and our own with one needed fewer, which is wrong at the first four.
pub fn judge(required: &[u16]) {
    let ours = own(8, &reference::plan(8, required, &[]).unwrap());
    let each = Holdings { people: 8, pieces: 8, needed: 5, marks: (0..64).map(|at| (at % 9 == 0) as u8).collect() };
    let wrong = Holdings { needed: 69, ..ours.clone() };
    for (name, list, want) in [
        ("judging any five of eight, our own 70 pieces", &ours, Verdict::Suits),
        ("judging any five of eight, a piece each", &each, Verdict::Suits),
        ("judging any five of eight, 69 of our 70 needed", &wrong, Verdict::Many(15)),
    ] {
        assert_eq!(unit::judge(8, required, &[], list), Ok(want));
        assert_eq!(reference::judge(8, required, &[], list), Ok(want));
        compare(
            name,
            || {
                black_box(unit::judge(8, black_box(required), &[], black_box(list))).ok();
            },
            || {
                black_box(reference::judge(8, black_box(required), &[], black_box(list))).ok();
            },
        );
    }
}

/// The four calls that have a key, by the policy of a deal.
pub fn keys(d: &Deal) {
    let key: [u8; 16] = std::array::from_fn(|i| (i * 37 + 200) as u8);
    let packed = reference::pack(&key).unwrap();
    let mut words = [0; 10];
    compare(
        "packing a key",
        || {
            black_box(unit::pack(black_box(&key), &mut words)).ok();
        },
        || {
            black_box(reference::pack(black_box(&key))).ok();
        },
    );
    assert_eq!(words, packed);
    let (mut ours, mut theirs) = ([0; 16], [0; 16]);
    compare(
        "unpacking a key",
        || {
            black_box(unit::unpack(black_box(&packed), &mut ours)).ok();
        },
        || {
            black_box(reference::unpack(black_box(&packed), &mut theirs)).ok();
        },
    );
    assert_eq!((ours, theirs), (key, key));
    let d = Deal { secret: packed.to_vec(), random: d.random[..d.random.len() / 16 * 10].to_vec(), ..d.clone() };
    let (mut ours, mut theirs) = (vec![0; 35 * BLOCK], vec![0; 35 * BLOCK]);
    compare(
        "dealing a key's card of 35 blocks",
        || {
            black_box(unit::deal_key(black_box(&d), &key, 3, &mut ours)).ok();
        },
        || {
            black_box(reference::deal_key(black_box(&d), &key, 3, &mut theirs)).ok();
        },
    );
    assert_eq!(ours, theirs);
    let pile = pieces(&d).concat();
    let (mut ours, mut theirs) = ([0; 16], [0; 16]);
    compare(
        "joining 70 blocks of 70 pieces to a key",
        || {
            black_box(unit::join_key(black_box(&pile), &mut ours)).ok();
        },
        || {
            black_box(reference::join_key(black_box(&pile), &mut theirs)).ok();
        },
    );
    assert_eq!((ours, theirs), (key, key));
}
