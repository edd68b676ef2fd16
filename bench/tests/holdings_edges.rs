//! The edges of judging, on the library and on the independent implementation: small lists by hand, each way in which a list is not in order, and the order
//! of the refusals. What is expected is written here, from SCOPE.
use bench::reference::{self, own, Holdings, Refusal, Verdict};
use bench::unit;

/// Both say this of the list, by a policy that forbids nothing.
fn said(people: usize, required: &[u16], list: &Holdings, want: Result<Verdict, Refusal>) {
    for judge in [unit::judge, reference::judge] {
        assert_eq!(judge(people, required, &[], list), want, "{people} {required:?} {list:?}");
    }
}

const ROWS: Result<Verdict, Refusal> = Err(Refusal { number: 30, a: 0, b: 0 });

/// A list in order, from its rows.
fn list(needed: usize, rows: &[&[u8]]) -> Holdings {
    Holdings { people: rows.len(), pieces: rows[0].len(), needed, marks: rows.concat() }
}

/// The sets of so many of so many people.
fn sets(people: usize, members: u32) -> Vec<u16> {
    (0..1u16 << people).filter(|set| set.count_ones() == members).collect()
}

/// A piece each, of as many pieces as people.
fn one_each(people: usize, needed: usize) -> Holdings {
    let marks = (0..people * people).map(|at| (at % (people + 1) == 0) as u8).collect();
    Holdings { people, pieces: people, needed, marks }
}

#[test]
fn two_of_three() {
    let pairs = [3, 5, 6];
    said(3, &pairs, &one_each(3, 2), Ok(Verdict::Suits));
    // {1, 2} has two of three, and {1} has one
    said(3, &pairs, &one_each(3, 3), Ok(Verdict::Few(3)));
    said(3, &pairs, &one_each(3, 1), Ok(Verdict::Many(1)));
    // a piece that two have counts once: {1, 2} has one
    said(3, &pairs, &list(2, &[&[1, 0], &[1, 0], &[0, 1]]), Ok(Verdict::Few(3)));
    // a piece that nobody has; a person without a piece; one who has all
    said(3, &pairs, &list(2, &[&[1, 0, 0, 0], &[0, 0, 1, 0], &[0, 0, 0, 1]]), Ok(Verdict::Suits));
    said(3, &pairs, &list(2, &[&[1, 0], &[0, 1], &[0, 0]]), Ok(Verdict::Few(5)));
    said(3, &pairs, &list(2, &[&[1, 0], &[0, 0], &[1, 1]]), Ok(Verdict::Few(3)));
    said(3, &[3], &list(2, &[&[1, 0], &[0, 1], &[1, 1]]), Ok(Verdict::Many(4)));
    // no marks at all: the first required set has none; equal rows; the same piece thrice
    said(3, &[6, 5], &list(1, &[&[0], &[0], &[0]]), Ok(Verdict::Few(5)));
    said(2, &[3], &list(1, &[&[1], &[1]]), Ok(Verdict::Many(1)));
    said(3, &[7], &list(1, &[&[0], &[0], &[1]]), Ok(Verdict::Many(4)));
    // everybody's pieces are too few
    said(2, &[3], &list(3, &[&[1, 0, 0], &[0, 1, 0]]), Ok(Verdict::Few(3)));
}

/// The policy of P1, whose pieces are lacked by {1, 3}, {1, 4} and {2, 4}; each mark turned.
#[test]
fn the_first_policy() {
    let required = [3, 6, 12];
    let rows: [&[u8]; 4] = [&[0, 0, 1], &[1, 1, 0], &[0, 1, 1], &[1, 0, 0]];
    said(4, &required, &list(3, &rows), Ok(Verdict::Suits));
    said(4, &required, &list(2, &rows), Ok(Verdict::Many(2)));
    let turned = |person: usize, j: usize| {
        let mut list = list(3, &rows);
        list.marks[(person - 1) * 3 + j - 1] ^= 1;
        list
    };
    // without piece 1 of holder 4, {3, 4} has pieces 2 and 3; with piece 1 at holder 1, {1, 3} has all
    let verdicts = [
        [Verdict::Many(5), Verdict::Many(9), Verdict::Few(3)],
        [Verdict::Few(3), Verdict::Few(3), Verdict::Many(2)],
        [Verdict::Many(4), Verdict::Few(12), Verdict::Few(6)],
        [Verdict::Few(12), Verdict::Many(9), Verdict::Many(10)],
    ];
    for (person, row) in (1..).zip(verdicts) {
        for (j, verdict) in (1..).zip(row) {
            said(4, &required, &turned(person, j), Ok(verdict));
        }
    }
    // the forbidden list does not count, unless it refuses
    for judge in [unit::judge, reference::judge] {
        assert_eq!(judge(4, &required, &[9, 5, 0], &list(3, &rows)), Ok(Verdict::Suits));
        assert_eq!(judge(4, &required, &[9, 7], &list(3, &rows)), Err(Refusal { number: 6, a: 1, b: 2 }));
    }
}

#[test]
fn lists_that_are_not_in_order() {
    let required = [3, 6, 12];
    let good = list(3, &[&[0, 0, 1], &[1, 1, 0], &[0, 1, 1], &[1, 0, 0]]);
    let is = |change: &dyn Fn(&mut Holdings), want| {
        let mut list = good.clone();
        change(&mut list);
        said(4, &required, &list, want);
    };
    is(&|_| {}, Ok(Verdict::Suits));
    for people in [0, 1, 3, 5, 8, 256 + 4, (1 << 32) + 4, usize::MAX] {
        is(&|list| list.people = people, ROWS);
        is(&|list| (list.people, list.marks) = (people, vec![0; 3 * people.min(9)]), ROWS);
    }
    // twelve marks are also six rows of two, and three rows of four
    is(&|list| (list.people, list.pieces, list.needed) = (6, 2, 2), ROWS);
    is(&|list| (list.people, list.pieces) = (3, 4), ROWS);
    for pieces in [0, 1, 2, 4, 70, 71, 72, 256 + 3, (1 << 32) + 3, 1 << 60, 1 << 62, (1 << 62) + 3, usize::MAX] {
        is(&|list| list.pieces = pieces, ROWS);
        is(&|list| (list.pieces, list.needed, list.marks) = (pieces, 1, vec![]), ROWS);
    }
    is(&|list| (list.pieces, list.needed, list.marks) = (0, 0, vec![]), ROWS);
    for needed in [0, 4, 70, 71, 256 + 3, (1 << 32) + 3, usize::MAX] {
        is(&|list| list.needed = needed, ROWS);
    }
    for count in [0, 1, 11, 13, 24, 280] {
        is(&|list| list.marks.resize(count, 0), ROWS);
    }
    for at in 0..12 {
        for mark in [2, 3, 127, 128, 254, 255] {
            is(&|list| list.marks[at] = mark, ROWS);
        }
    }
}

/// 70 pieces and 71, of eight people and of two; as many needed as there are, and one more.
#[test]
fn seventy_and_seventy_one() {
    let both = |pieces: usize, needed: usize| {
        // 1 has all pieces but the last, and 2 the last
        let marks = (0..2 * pieces).map(|at| (at / pieces == (at % pieces + 1) / pieces) as u8).collect();
        Holdings { people: 2, pieces, needed, marks }
    };
    said(2, &[3], &both(70, 70), Ok(Verdict::Suits));
    said(2, &[3], &both(70, 69), Ok(Verdict::Many(1)));
    said(2, &[3], &both(70, 71), ROWS);
    said(2, &[3], &both(71, 71), ROWS);
    said(2, &[3], &both(71, 70), ROWS);
    let fives = sets(8, 5);
    let ours = own(8, &reference::plan(8, &fives, &[]).unwrap());
    assert_eq!((ours.pieces, ours.marks.len()), (70, 560));
    said(8, &fives, &ours, Ok(Verdict::Suits));
    said(8, &fives, &Holdings { needed: 69, ..ours.clone() }, Ok(Verdict::Many(15)));
    said(8, &fives, &Holdings { needed: 71, ..ours.clone() }, ROWS);
    // by any six the first five have too many; by any four the first four too few
    said(8, &sets(8, 6), &ours, Ok(Verdict::Many(31)));
    said(8, &sets(8, 4), &ours, Ok(Verdict::Few(15)));
    // the first four lack piece 1, and without person 8's these five lack it
    let mut less = ours.clone();
    less.marks[7 * 70] = 0;
    said(8, &fives, &less, Ok(Verdict::Few(15 + 128)));
}

/// Whatever the policy, its own holdings suit, and a piece each suits any m of n, with m needed and with nothing else.
#[test]
fn any_m_of_n() {
    for people in 2..=8 {
        for members in 2..=people {
            let required = sets(people, members as u32);
            let mut groups = [0; 70];
            let k = unit::plan(people, &required, &[], &mut groups).unwrap();
            said(people, &required, &own(people, &groups[..k]), Ok(Verdict::Suits));
            for needed in 1..=people {
                let want = match needed.cmp(&members) {
                    std::cmp::Ordering::Less => Verdict::Many((1 << needed) - 1),
                    std::cmp::Ordering::Equal => Verdict::Suits,
                    std::cmp::Ordering::Greater => Verdict::Few((1 << members) - 1),
                };
                said(people, &required, &one_each(people, needed), Ok(want));
            }
        }
    }
}

/// What planning refuses comes first, whatever the list is.
#[test]
fn planning_speaks_first() {
    let bad = Holdings { people: 3, pieces: 71, needed: 72, marks: vec![2; 3] };
    let none = Holdings { people: 0, pieces: 0, needed: 0, marks: vec![] };
    let pairs = vec![3; 257];
    let cases: [(usize, &[u16], &[u16], (usize, usize, usize)); 11] = [
        (0, &[3], &[], (1, 0, 0)),
        (9, &[3], &[], (1, 0, 0)),
        (usize::MAX, &[3], &[], (1, 0, 0)),
        (2, &pairs, &[], (2, 1, 0)),
        (2, &[3], &pairs, (2, 2, 0)),
        (4, &[3, 16], &[], (3, 1, 2)),
        (4, &[3], &[1, 16], (3, 2, 2)),
        (4, &[], &[], (4, 0, 0)),
        (4, &[3, 0], &[], (5, 2, 0)),
        (4, &[3, 12, 4], &[3], (22, 3, 0)),
        (4, &[3, 6], &[9, 6], (6, 2, 2)),
    ];
    for (people, required, forbidden, (number, a, b)) in cases {
        for list in [&bad, &none, &one_each(4, 2)] {
            for judge in [unit::judge, reference::judge] {
                assert_eq!(judge(people, required, forbidden, list), Err(Refusal { number, a, b }), "{people} {required:?}");
            }
        }
    }
    said(4, &[3, 6], &bad, ROWS);
}
