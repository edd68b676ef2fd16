//! The desk.
use crate::timing::compare;
use bench::reference::{words_of, Desk};
use bench::unit;
use std::hint::black_box;

/// The calls at a desk, of a client that has all pieces of a deal: handing one of them in once more, which looks at every slot of the client as the
/// last new one does; asking; closing, and opening again.
pub fn desk(blocks: &[Vec<u8>]) {
    let words = words_of(&blocks[0]);
    let (k, w) = (words[4] as usize, words[5] as usize);
    let opening = [2, 4, 5, 6, 24].map(|i| words[i - 1] as usize);
    let (mut ours, mut theirs) = (Desk::fresh(), Desk::fresh());
    for client in [1, 2] {
        assert_eq!(unit::desk_open(&mut ours, client, opening).and(theirs.open(client, opening)), Ok(k));
        for (at, block) in blocks.iter().enumerate() {
            assert_eq!(unit::desk_hand_in(&mut ours, client, block).and(theirs.hand_in(client, block)), Ok(at + 1));
        }
        compare(
            &format!("handing in one of {k} pieces to client {client}"),
            || {
                black_box(unit::desk_hand_in(black_box(&mut ours), client, &blocks[k / 2])).ok();
            },
            || {
                black_box(theirs.hand_in(black_box(client), &blocks[k / 2])).ok();
            },
        );
        let (mut words, mut their_words) = ([0; 16], [0; 16]);
        compare(
            &format!("asking for {w} words of {k} pieces, client {client}"),
            || {
                black_box(unit::desk_ask(black_box(&mut ours), client, &mut words)).ok();
            },
            || {
                black_box(theirs.ask(black_box(client), &mut their_words)).ok();
            },
        );
        assert!(words == their_words && ours == theirs);
        compare(
            &format!("closing and opening, {k} slots, client {client}"),
            || {
                black_box(unit::desk_close(black_box(&mut ours), client)).ok();
                black_box(unit::desk_open(black_box(&mut ours), client, opening)).ok();
            },
            || {
                black_box(theirs.close(black_box(client))).ok();
                black_box(theirs.open(black_box(client), opening)).ok();
            },
        );
        assert_eq!(unit::desk_close(&mut ours, client).and(theirs.close(client)), Ok(k));
        assert!(ours == Desk::fresh() && theirs == Desk::fresh());
    }
}
