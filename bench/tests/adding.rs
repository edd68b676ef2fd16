//! Adding: the library against the independent implementation, the answer and the whole output; exchanged and grouped the other way; and a count
//! of what was met.
use bench::inputs;
use bench::met::{Kinds, Met};
use bench::numbers::Numbers;
use bench::pairs::{another, beside, fellows, of_block, pair, sum, Pair};
use bench::reference::{self, words_of, Refusal, BLOCK};
use bench::unit;

const MET: [&str; 43] = [
    "TORN, block one, of fewer bytes",
    "TORN, block one, of more bytes",
    "TORN, block two, of fewer bytes",
    "TORN, block two, of more bytes",
    "UNREAD, block 1",
    "UNREAD, block 2",
    "CHECK, block 1",
    "CHECK, block 2",
    "HEADER, block 1",
    "HEADER, block 2",
    "block one refused, and two is not good either",
    "UNLIKE, word 3",
    "UNLIKE, word 4",
    "UNLIKE, word 5",
    "UNLIKE, word 6",
    "UNLIKE, word 7",
    "UNLIKE, and the number, the year or the room is bad",
    "DEAL, 0",
    "DEAL, above 32748",
    "DEAL, above 65535",
    "DEAL, and the year is bad",
    "YEAR, up to 65535",
    "YEAR, above 65535",
    "YEAR, an old number",
    "YEAR, an old pair in its low bits",
    "YEAR, and no room",
    "DEAL, block one's pair",
    "DEAL, block two's pair",
    "DEAL, the pair of both",
    "DEAL, and no room",
    "ROOM, 511 bytes",
    "ROOM, fewer bytes",
    "added, of one number and one year",
    "added, of one number and two years",
    "added, of two years",
    "added, an old number in another year",
    "added, an old year",
    "added, one's number and the other's year",
    "added, under year 0",
    "added, a block to itself",
    "added, a sum of p",
    "added, a sum of p - 1",
    "added, with more room",
];

/// What the answer was, and why.
fn describe(kinds: &mut Kinds, p: &Pair, said: &Result<usize, Refusal>) {
    let (one, two) = (&p.one, &p.two);
    let room = p.out.len();
    let refusal = match said {
        Ok(_) => {
            let (x, y) = (words_of(one), words_of(two));
            kinds.note("added");
            let sums: Vec<u32> = (7..7 + x[5] as usize).map(|i| x[i] as u32 + y[i] as u32).collect();
            let (old, new) = ([of_block(one), of_block(two)], (p.number, p.year));
            for (holds, kind) in [
                (old[0] == old[1], "added, of one number and one year"),
                (old[0].0 == old[1].0 && old[0].1 != old[1].1, "added, of one number and two years"),
                (old[0].1 != old[1].1, "added, of two years"),
                (old.iter().any(|old| old.0 == new.0), "added, an old number in another year"),
                (old.iter().any(|old| old.1 == new.1), "added, an old year"),
                (new == (old[0].0, old[1].1) || new == (old[1].0, old[0].1), "added, one's number and the other's year"),
                (new.1 == 0, "added, under year 0"),
                (one == two, "added, a block to itself"),
                (sums.contains(&32749), "added, a sum of p"),
                (sums.contains(&32748), "added, a sum of p - 1"),
                (room > BLOCK, "added, with more room"),
            ] {
                if holds {
                    kinds.note(kind);
                }
            }
            return;
        }
        Err(refusal) => refusal,
    };
    match refusal.number {
        13 => {
            let (name, torn) = if one.len() != BLOCK { ("one", one) } else { ("two", two) };
            kinds.note(format!("TORN, block {name}, of {} bytes", if torn.len() < BLOCK { "fewer" } else { "more" }));
        }
        15 => kinds.note(format!("UNREAD, block {}", refusal.a)),
        16 => kinds.note(format!("CHECK, block {}", refusal.a)),
        17 => kinds.note(format!("HEADER, block {}", refusal.a)),
        24 => {
            kinds.note(format!("UNLIKE, word {}", refusal.a));
            if p.number == 0 || p.number > 32748 || p.year > 32748 || room < BLOCK {
                kinds.note("UNLIKE, and the number, the year or the room is bad");
            }
        }
        8 => {
            let (x, y, new) = (of_block(one), of_block(two), (p.number, p.year));
            kinds.note(match p.number {
                0 => "DEAL, 0",
                32749..=65535 => "DEAL, above 32748",
                65536.. => "DEAL, above 65535",
                _ if new == x && new == y => "DEAL, the pair of both",
                _ if new == x => "DEAL, block one's pair",
                _ => "DEAL, block two's pair",
            });
            if p.year > 32748 {
                kinds.note("DEAL, and the year is bad");
            }
            if room < BLOCK {
                kinds.note("DEAL, and no room");
            }
        }
        25 => {
            let old = [of_block(one), of_block(two)];
            kinds.note(if p.year > 65535 { "YEAR, above 65535" } else { "YEAR, up to 65535" });
            if old.iter().any(|old| old.0 == p.number) {
                kinds.note("YEAR, an old number");
            }
            if old.contains(&(p.number, p.year % 65536)) {
                kinds.note("YEAR, an old pair in its low bits");
            }
            if room < BLOCK {
                kinds.note("YEAR, and no room");
            }
        }
        _ => kinds.note(if room == 511 { "ROOM, 511 bytes" } else { "ROOM, fewer bytes" }),
    }
    let bad = |block: &[u8]| block.len() != BLOCK || reference::open(block).is_err();
    if bad(one) && bad(two) {
        kinds.note("block one refused, and two is not good either");
    }
}

#[test]
fn additions() {
    let mut n = Numbers::new(51);
    let (mut met, mut kinds) = (Met::default(), Kinds::default());
    for _ in 0..2_000 {
        let d = inputs::good_deal(&mut n);
        let other = beside(&mut n, &d, false);
        let blocks = fellows(&d, &other);
        for _ in 0..50 {
            let p = pair(&mut n, &blocks);
            let (mut ours, mut theirs) = (p.out.clone(), p.out.clone());
            let expected = reference::add(&p.one, &p.two, p.number, p.year, &mut theirs);
            met.note(&expected);
            describe(&mut kinds, &p, &expected);
            assert_eq!(unit::add(&p.one, &p.two, p.number, p.year, &mut ours), expected, "{} {} {}", p.number, p.year, p.out.len());
            assert!(ours == theirs, "the output differs, {} {} {}", p.number, p.year, p.out.len());
            if expected.is_err() {
                assert!(ours == p.out, "a refusal wrote");
                continue;
            }
            assert!(ours[BLOCK..] == p.out[BLOCK..], "it wrote past the sum");
            let mut exchanged = p.out.clone();
            assert_eq!(unit::add(&p.two, &p.one, p.number, p.year, &mut exchanged), Ok(1));
            assert!(exchanged == ours, "exchanged, the sum is another");
        }
    }
    met.shows(&[0, 8, 12, 13, 15, 16, 17, 24, 25]);
    kinds.shows(&MET, 300);
}

#[test]
fn three_blocks_in_either_grouping() {
    let mut n = Numbers::new(52);
    for _ in 0..2_000 {
        let d = inputs::good_deal(&mut n);
        let (two, three) = (beside(&mut n, &d, false), beside(&mut n, &d, false));
        let (pairs, others) = (fellows(&d, &two), fellows(&d, &three));
        for _ in 0..5 {
            let at = n.below(pairs.len());
            let ([one, two], [_, three]) = (&pairs[at], &others[at]);
            let old = [one, two, three].map(|block| of_block(block));
            let left = another(&mut n, &old);
            let right = if n.once_in(2) { left } else { another(&mut n, &old) };
            let last = another(&mut n, &[&old[..], &[left, right]].concat());
            assert!(sum(&sum(one, two, left), three, last) == sum(one, &sum(two, three, right), last));
        }
    }
}
