//! Piles of several deals: every joiner of the library against the independent implementation, answers and whole lent buffers; and a count of
//! what was met, by the shape of the piles, by their heaps and by the place that MIXED names.
use bench::inputs;
use bench::met::{Kinds, Met};
use bench::mixed::{self, label, Label};
use bench::numbers::Numbers;
use bench::reference::{self, heaps, Refusal, BLOCK};
use bench::unit;

const SHAPES: [&str; 9] = [
    "an old card on top",
    "an old card in the middle",
    "an old card at the end",
    "two equal heaps, one behind the other",
    "two equal heaps, shuffled",
    "one block on top of two equal heaps",
    "three heaps",
    "every block of another deal",
    "any heaps",
];

const MET: [&str; 14] = [
    "18 names block 1",
    "18 names a block in between",
    "18 names the last block",
    "18, one heap is largest, that of block 1",
    "18, one heap is largest, not that of block 1",
    "18, the largest are equal, block 1's among them",
    "18, the largest are equal, block 1's not among them",
    "18 by word 2 alone",
    "18 by word 4 alone",
    "18 by word 5 alone",
    "18 by word 6 alone",
    "18 by word 24 alone",
    "18, two heaps",
    "18, three heaps",
];

/// What is to be said of a pile that is MIXED at place a.
fn describe(kinds: &mut Kinds, labels: &[Label], a: usize) {
    let heaps = heaps(labels);
    let largest: Vec<&(Label, usize)> = heaps.iter().filter(|heap| heaps.iter().all(|other| other.1 <= heap.1)).collect();
    let whose = match (largest.len() == 1, largest[0].0 == labels[0]) {
        (true, true) => "one heap is largest, that of block 1",
        (true, false) => "one heap is largest, not that of block 1",
        (false, true) => "the largest are equal, block 1's among them",
        (false, false) => "the largest are equal, block 1's not among them",
    };
    kinds.note(format!("18, {whose}"));
    kinds.note(match a {
        1 => "18 names block 1",
        _ if a == labels.len() => "18 names the last block",
        _ => "18 names a block in between",
    });
    match heaps.len() {
        2 => {
            kinds.note("18, two heaps");
            let unlike: Vec<usize> = (0..5).filter(|at| heaps[0].0[*at] != heaps[1].0[*at]).collect();
            if let [at] = unlike[..] {
                kinds.note(format!("18 by word {} alone", [2, 4, 5, 6, 24][at]));
            }
        }
        3 => kinds.note("18, three heaps"),
        _ => kinds.note("18, more heaps"),
    }
}

#[test]
fn mixed_piles() {
    let mut n = Numbers::new(9);
    let (mut met, mut kinds) = (Met::default(), Kinds::default());
    for round in 0..20_000 {
        let d = inputs::good_deal(&mut n);
        let blocks = inputs::blocks(&d, (1 << d.people) - 1);
        let most = if round % 200 == 0 { 370 } else { 12 };
        let (shape, mut pile) = mixed::pile(&mut n, &blocks, most);
        kinds.note(shape);
        if n.once_in(5) {
            inputs::damage(&mut n, &d, &mut pile);
        }
        let pile = pile.concat();
        let room = if n.once_in(4) { n.below(17) } else { 16 };
        let before: Vec<u16> = (0..room).map(|_| n.next() as u16).collect();
        let mut theirs = before.clone();
        let expected = reference::join(&pile, &mut theirs);
        met.note(&expected);
        for join in unit::JOINERS.into_iter().chain([reference::join_by_differences as fn(&_, &mut _) -> _]) {
            let mut ours = before.clone();
            assert_eq!(join(&pile, &mut ours), expected, "{shape}");
            assert_eq!(ours, theirs, "{shape}");
        }
        let mut key = [9; 16];
        let said = unit::join_key(&pile, &mut key);
        if let Err(Refusal { number: 18, a, .. }) = expected {
            assert_eq!((said, key), (expected, [9; 16]), "{shape}");
            describe(&mut kinds, &pile.chunks(BLOCK).map(label).collect::<Vec<_>>(), a);
        }
    }
    met.shows(&[15, 16, 17, 18]);
    kinds.shows(&[&SHAPES[..], &MET[..]].concat(), 1000);
}
