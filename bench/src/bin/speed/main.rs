//! Benchmarks: the proved library against the independent Rust, in one run, both built for release; then its three joiners, and asking at a desk, side by side.
//! Median of many rounds; the two take turns within a round. Buffers are not cleared between calls.
mod deals;
mod desk;
mod piles;
mod sets;
mod timing;

use bench::inputs;
use bench::reference::{self, block_words, bytes_of, BLOCK};
use bench::unit;
use deals::{judge, keys, secret, threshold};
use desk::desk;
use piles::{add, join, joiners, mixed, pieces, salvage};
use sets::by_sets_piles;
use std::hint::black_box;
use timing::compare;

fn main() {
    if cfg!(not(target_arch = "x86_64")) {
        eprintln!("speed: the library is for x86-64, and here it runs behind a pipe in an emulator, of which a time says nothing");
        std::process::exit(1);
    }
    println!("| call | library, µs | Rust, µs | ratio | middle half |");
    println!("|---|---|---|---|---|");
    let d = threshold(8, 5);
    let mut groups = [0; 70];
    compare(
        "planning any five of eight",
        || {
            black_box(unit::plan(8, black_box(&d.required), &[], &mut groups)).ok();
        },
        || {
            black_box(reference::plan(8, black_box(&d.required), &[])).ok();
        },
    );
    judge(&d.required);
    let (mut ours, mut theirs) = (vec![0; 35 * BLOCK], vec![0; 35 * BLOCK]);
    compare(
        "dealing a card of 35 blocks of 16 words",
        || {
            black_box(unit::deal(black_box(&d), 3, &mut ours)).ok();
        },
        || {
            black_box(reference::deal(black_box(&d), 3, &mut theirs)).ok();
        },
    );
    assert_eq!(ours, theirs);
    keys(&d);
    let all = pieces(&d);
    let many: Vec<u8> = (0..560).flat_map(|i| all[i % 70].clone()).collect();
    join("joining 560 blocks of 70 pieces", &many);
    salvage(&many);
    // two pieces that one holder has
    let held: Vec<Vec<u8>> = inputs::blocks(&d, 1);
    add(&held);
    desk(&all);
    desk(&pieces(&threshold(3, 2)));
    for blocks in [70, 140, 280] {
        join(&format!("joining {blocks} blocks of 70 pieces"), &many[..blocks * BLOCK]);
    }
    join("joining 1 blocks of 1 pieces", &bytes_of(&block_words([1987, 7, 1, 1, 1, 16, 1], &secret(), 2026)));
    for (people, least) in [(3, 2), (4, 3), (5, 3), (6, 4), (7, 4)] {
        let d = threshold(people, least);
        let pile = pieces(&d).concat();
        join(&format!("joining {} blocks of {0} pieces", pile.len() / BLOCK), &pile);
    }
    let d = threshold(6, 4);
    let few = pieces(&d);
    let many: Vec<u8> = (0..560).flat_map(|i| few[i % few.len()].clone()).collect();
    join("joining 560 blocks of 20 pieces", &many);
    mixed();
    by_sets_piles();
    joiners();
}
