//! The desk where its state is none that calls leave: any numbers in the slots, any words. The library answers what the independent implementation
//! answers, leaves what it leaves, and does not trap.
use bench::desks::{call, spoilt, Call};
use bench::met::{Kinds, Met};
use bench::numbers::Numbers;
use bench::reference::Desk;

const MET: [&str; 12] = [
    "open both, on more than 70 slots",
    "open one",
    "open none",
    "words above 65535",
    "a value that cannot be read in a slot with a mark",
    "a mark above 1",
    "taken, where something was",
    "taken, over a value that cannot be read",
    "joined",
    "SHORT, fewer than the marks",
    "closed, and something is left",
    "opened, and a piece was there",
];

/// What the state is, and what became of it.
fn describe(kinds: &mut Kinds, x: &Call, before: &Desk, after: &Desk, said: bool) {
    let open: Vec<usize> = (1..=2).filter(|client| before.is_open(*client)).collect();
    let held = |desk: &Desk, client: usize| if desk.is_open(client) { desk.words[client - 1][2] } else { 0 };
    let marks = |desk: &Desk, client: usize| (1..=held(desk, client)).filter(|j| desk.slots[if client == 1 { j - 1 } else { 70 - j }][0] != 0).count();
    let kept = |desk: &Desk, client: usize| (1..=held(desk, client)).filter(|j| desk.kept(client, *j).is_some()).count();
    let client = x.client();
    let known = client == 1 || client == 2;
    let (handed, asked, left) = (matches!(x, Call::HandIn(..)), matches!(x, Call::Ask(..)), matches!(x, Call::Close(_)));
    let marked = |slot: &[u16; 17]| slot[0] != 0 && slot[1..].iter().any(|value| *value > 32748);
    let over = |client: usize| marks(before, client) == marks(after, client) && kept(before, client) < kept(after, client);
    for (holds, kind) in [
        (open.len() == 2 && held(before, 1) + held(before, 2) > 70, "open both, on more than 70 slots"),
        (open.len() == 1, "open one"),
        (open.is_empty(), "open none"),
        (before.words.as_flattened().iter().any(|word| *word > 65535), "words above 65535"),
        (before.slots.iter().any(marked), "a value that cannot be read in a slot with a mark"),
        (before.slots.iter().any(|slot| slot[0] > 1), "a mark above 1"),
        (handed && said && before == after, "taken, where it was"),
        (handed && said && before != after, "taken, where something was"),
        (handed && said && over(client), "taken, over a value that cannot be read"),
        (asked && said, "joined"),
        (asked && !said && known && kept(before, client) < marks(before, client), "SHORT, fewer than the marks"),
        (left && said && after.words == [[0; 5]; 2] && after.slots != [[0; 17]; 70], "closed, and something is left"),
        (matches!(x, Call::Open(..)) && said && kept(after, client) > 0, "opened, and a piece was there"),
    ] {
        if holds {
            kinds.note(kind);
        }
    }
}

#[test]
fn any_state() {
    let mut n = Numbers::new(63);
    let (mut met, mut kinds, mut calls) = (Met::default(), Kinds::default(), 0);
    for _ in 0..50_000 {
        let (mut ours, mut visits) = spoilt(&mut n);
        let mut theirs = ours.clone();
        for _ in 0..2 + n.below(5) {
            let x = call(&mut n, &theirs, &mut visits, false);
            let before = theirs.clone();
            let expected = x.expected(&mut theirs);
            assert_eq!(x.said(&mut ours), expected, "{x:?} at {:?}", before.words);
            assert!(ours == theirs, "the state differs after {x:?}");
            if expected.0.is_err() {
                assert!(ours == before, "a refusal changed the desk");
            }
            calls += 1;
            met.note(&expected.0);
            describe(&mut kinds, &x, &before, &theirs, expected.0.is_ok());
        }
    }
    println!("{calls} calls");
    met.shows(&[0, 12, 13, 15, 16, 17, 18, 19, 20, 26, 27, 28, 29]);
    kinds.shows(&MET, 300);
}
