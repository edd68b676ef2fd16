//! Piles: joining, salvage, adding, and piles of several deals.
use crate::deals::secret;
use crate::timing::{compare, side_by_side};
use bench::inputs;
use bench::reference::{self, block_words, bytes_of, Deal, Desk, Refusal, BLOCK};
use bench::unit;
use std::hint::black_box;

/// One block of each piece of a deal.
pub fn pieces(d: &Deal) -> Vec<Vec<u8>> {
    let mut blocks = inputs::blocks(d, (1 << d.people) - 1);
    blocks.sort_by_key(|block| block[13]);
    blocks.dedup_by_key(|block| block[13]);
    blocks
}

pub fn join(name: &str, pile: &[u8]) {
    let (mut ours, mut theirs) = ([0; 16], [0; 16]);
    assert_eq!(unit::join(pile, &mut ours), reference::join(pile, &mut theirs));
    assert_eq!(ours, theirs);
    compare(
        name,
        || {
            black_box(unit::join(black_box(pile), &mut ours)).ok();
        },
        || {
            black_box(reference::join(black_box(pile), &mut theirs)).ok();
        },
    );
}

/// Salvaging 560 blocks where they stand. Where words were lost, each call has the scratched pile copied over the one before.
pub fn salvage(good: &[u8]) {
    let mut lost = good.to_vec();
    for (at, block) in lost.chunks_exact_mut(BLOCK).enumerate() {
        inputs::with_word(block, 1 + at % 256, 32767, false);
    }
    for (name, pile, count) in [("salvaging 560 blocks, no word lost", good, 0), ("salvaging 560 blocks, a word of each lost, and copying them", &lost, 560)] {
        let (mut ours, mut theirs) = (pile.to_vec(), pile.to_vec());
        let (mut list, mut their_list) = ([0; 1120], [0; 1120]);
        assert_eq!(unit::salvage(&mut ours, &mut list), Ok(count));
        assert_eq!(reference::salvage(&mut theirs, &mut their_list), Ok(count));
        assert!(ours == good && theirs == good && list == their_list);
        compare(
            name,
            || {
                if count > 0 {
                    ours.copy_from_slice(pile);
                }
                black_box(unit::salvage(black_box(&mut ours), &mut list)).ok();
            },
            || {
                if count > 0 {
                    theirs.copy_from_slice(pile);
                }
                black_box(reference::salvage(black_box(&mut theirs), &mut their_list)).ok();
            },
        );
    }
}

/// Adding two blocks of 16 words, and refusing two that differ in word 7, the last that is compared.
pub fn add(blocks: &[Vec<u8>]) {
    let mut other = blocks[0].clone();
    inputs::with_word(&mut other, 2, 8, true);
    for (name, two, want) in [
        ("adding two blocks of 16 words", &other, Ok(1)),
        ("refusing two blocks of unlike pieces", &blocks[1], Err(Refusal { number: 24, a: 7, b: 0 })),
    ] {
        let (mut ours, mut theirs) = ([0; BLOCK], [0; BLOCK]);
        assert_eq!(unit::add(&blocks[0], two, 9, 2026, &mut ours), want);
        assert_eq!(reference::add(&blocks[0], two, 9, 2026, &mut theirs), want);
        assert_eq!(ours, theirs);
        compare(
            name,
            || {
                black_box(unit::add(black_box(&blocks[0]), two, 9, 2026, &mut ours)).ok();
            },
            || {
                black_box(reference::add(black_box(&blocks[0]), two, 9, 2026, &mut theirs)).ok();
            },
        );
    }
}

/// Mixed piles as large as can be, all blocks true, up to MIXED: 560 deals of a block each, and two heaps of 280 whose blocks take turns.
pub fn mixed() {
    let values = secret();
    let of_deal = |deal: u16, j: u16| bytes_of(&block_words([1987, deal, 1, 8, 70, 16, j], &values, 2026));
    let unlike: Vec<u8> = (0..560).flat_map(|i| of_deal(1 + i, 1 + i % 70)).collect();
    let turns: Vec<u8> = (0..560).flat_map(|i| of_deal(1 + i % 2, 1 + i % 70)).collect();
    for (name, pile) in [("refusing 560 blocks, no two of one deal", unlike), ("refusing 560 blocks, two heaps of 280", turns)] {
        assert_eq!(unit::join(&pile, &mut [0; 16]), Err(Refusal { number: 18, a: 2, b: 0 }));
        join(name, &pile);
    }
}

/// One block of each of k pieces, of sixteen words; any values are pieces of some secret.
fn any_pieces(k: usize) -> Vec<u8> {
    let values = |j: usize| (0..16).map(|i| ((i * 7919 + j * j * 2047) % 32749) as u16).collect::<Vec<u16>>();
    (1..=k).flat_map(|j| reference::bytes_of(&reference::block_words([1987, 7, 1, 8, k as u16, 16, j as u16], &values(j), 2026))).collect()
}

/// The three joiners side by side, for each number of pieces, and asking at a desk that has the same pieces.
pub fn joiners() {
    println!("\n| pieces | by the inverse, µs | by differences, µs | by stored weights, µs | asking at the desk, µs |");
    println!("|---|---|---|---|---|");
    for k in 1..=70 {
        let pile = any_pieces(k);
        let mut desk = Desk::fresh();
        assert_eq!(unit::desk_open(&mut desk, 1, [7, 8, k, 16, 2026]), Ok(k));
        for block in pile.chunks(BLOCK) {
            unit::desk_hand_in(&mut desk, 1, block).expect("a good block");
        }
        let mut words = [[0; 16]; 4];
        let [one, two, three, asked] = &mut words;
        side_by_side(
            &k.to_string(),
            &mut [
                &mut || {
                    black_box(unit::join(black_box(&pile), one)).ok();
                },
                &mut || {
                    black_box(unit::join_by_differences(black_box(&pile), two)).ok();
                },
                &mut || {
                    black_box(unit::join_by_weights(black_box(&pile), three)).ok();
                },
                &mut || {
                    black_box(unit::desk_ask(black_box(&mut desk), 1, asked)).ok();
                },
            ],
        );
        assert!(words[0] != [0; 16] && words.iter().all(|same| *same == words[0]), "{k} pieces");
    }
}
