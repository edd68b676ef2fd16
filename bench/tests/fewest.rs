//! How many pieces there are at most, and how few there can be (SCOPE 2.2): 7, which stood for over 70 maximal groups, never comes; what n people have at most is
//! reached, and not passed; nobody has over 35 pieces; no list of fewer pieces than ours, all of them needed, suits.
use bench::met::Kinds;
use bench::numbers::Numbers;
use bench::reference::{self, held, judge, own, Deal, Holdings, Refusal, Verdict, BLOCK};
use bench::unit;

/// The most maximal groups of 1 to 8 people, and the most that have not a person, which are groups of the others.
const MOST: [usize; 8] = [1, 2, 3, 6, 10, 20, 35, 70];
const HELD: [usize; 8] = [1, 1, 2, 3, 6, 10, 20, 35];

/// The groups of the pieces, by the library and by the independent implementation, or the refusal, which is never 7.
fn plan(people: usize, required: &[u16]) -> Result<Vec<u16>, Refusal> {
    let mut groups = [0; 70];
    let ours = unit::plan(people, required, &[], &mut groups).map(|k| groups[..k].to_vec());
    assert_eq!(ours, reference::plan(people, required, &[]), "{people} {required:?}");
    match &ours {
        Ok(groups) => {
            assert!(groups.len() <= MOST[people - 1], "{people} {required:?}");
            assert!((1..=people).all(|person| held(groups, person).len() <= HELD[people - 1]), "{people} {required:?}");
            assert!(groups.iter().all(|one| groups.iter().all(|other| one == other || one & !other != 0)), "{people} {required:?}");
        }
        Err(refused) => assert_ne!(refused.number, 7),
    }
    ours
}

fn sets(people: usize, members: u32) -> Vec<u16> {
    (0..1u16 << people).filter(|set| set.count_ones() == members).collect()
}

/// Where more than half of the people open, whoever they are, the groups are all those of half of them, rounded down. One person would open alone.
#[test]
fn more_than_half_of_n() {
    assert_eq!(plan(1, &[1]), Err(Refusal { number: 22, a: 1, b: 0 }));
    for people in 2..=8 {
        let half = people as u32 / 2;
        let groups = plan(people, &sets(people, half + 1)).unwrap();
        assert_eq!(groups.len(), MOST[people - 1]);
        assert_eq!(groups, sets(people, half));
        assert!((1..=people).all(|person| held(&groups, person).len() == HELD[people - 1]));
        // of an odd number, those of half of them rounded up are as many
        if people % 2 == 1 {
            assert_eq!(plan(people, &sets(people, half + 2)).unwrap().len(), MOST[people - 1]);
        }
    }
    // every person's card of any five of eight, in room for 35 blocks and for a byte less
    let d = Deal {
        people: 8,
        required: sets(8, 5),
        forbidden: vec![],
        number: 7,
        year: 2026,
        secret: vec![1234],
        random: vec![0; 69],
    };
    for person in 1..=8 {
        let mut card = vec![0; 35 * BLOCK];
        assert_eq!(unit::deal(&d, person, &mut card), Ok(35));
        assert_eq!(unit::deal(&d, person, &mut card[1..]), Err(Refusal { number: 12, a: 35, b: 0 }));
    }
    for (people, members, k) in [(7, 4, 35), (8, 4, 56), (5, 3, 10), (8, 6, 56), (8, 8, 8), (8, 2, 8)] {
        assert_eq!(plan(people, &sets(people, members)).unwrap().len(), k);
    }
}

/// Every list of sets that up to four people can require.
#[test]
fn every_list_of_up_to_four_people() {
    for people in 1..=4 {
        let all = 1u32 << people;
        let mut most = 0;
        for family in 0..1u64 << all {
            let required: Vec<u16> = (0..all as u16).filter(|set| family >> set & 1 == 1).collect();
            if let Ok(groups) = plan(people, &required) {
                most = most.max(groups.len());
            }
        }
        // one person has no accepted policy
        assert_eq!(most, if people == 1 { 0 } else { MOST[people - 1] });
    }
}

/// Policies made to have many groups: all sets of one size, about half of the people, but for a few that have a person more or less; and larger ones besides,
/// which change nothing.
#[test]
fn policies_of_many_pieces() {
    let mut n = Numbers::new(12);
    let mut kinds = Kinds::default();
    for _ in 0..20_000 {
        let people = if n.once_in(2) { 8 } else { 4 + n.below(4) };
        let size = people as u32 / 2 + if n.once_in(4) { n.below(3) as u32 } else { 1 };
        let rare = [2, 5, 10, 20, 40, 1000][n.below(6)];
        let mut required = sets(people, size);
        for set in &mut required {
            if n.once_in(rare) {
                *set ^= 1 << n.below(people);
            }
        }
        let larger = sets(people, (size + 1).min(people as u32));
        required.extend((0..n.below(20)).map(|_| larger[n.below(larger.len())]));
        n.shuffle(&mut required);
        match plan(people, &required) {
            Ok(groups) => kinds.note(match groups.len() {
                70 => "70 pieces",
                60.. => "60 to 69 pieces",
                50.. => "50 to 59 pieces",
                36.. => "36 to 49 pieces",
                _ => "fewer pieces",
            }),
            Err(refused) => kinds.note(format!("refused {}", refused.number)),
        }
    }
    kinds.shows(&["70 pieces", "60 to 69 pieces", "50 to 59 pieces", "36 to 49 pieces"], 300);
}

/// A list of so many people with these holders of its pieces, all of which are needed.
fn list_of(people: usize, holders: &[u16]) -> Holdings {
    let pieces = holders.len();
    let marks = (0..people * pieces).map(|at| (holders[at % pieces] >> (at / pieces) & 1) as u8).collect();
    Holdings { people, pieces, needed: pieces, marks }
}

/// All ways to pick so many sets of the people, rising and with repeats: who has the first piece, who the second, and so on, in whatever order of the pieces.
fn pick(people: usize, pieces: usize, from: u16, chosen: &mut Vec<u16>, each: &mut dyn FnMut(&[u16])) {
    if chosen.len() == pieces {
        return each(chosen);
    }
    for holders in from..1 << people {
        chosen.push(holders);
        pick(people, pieces, holders, chosen, each);
        chosen.pop();
    }
}

/// Every list of fewer pieces than ours, all of them needed, by every accepted policy of up to four people: none suits. Of those with as many pieces one does,
/// but for the order of the pieces, and that is ours.
#[test]
fn no_shorter_list() {
    for people in 2..=4 {
        let mut policies = std::collections::BTreeMap::new();
        for family in 0..1u64 << (1 << people) {
            let required: Vec<u16> = (0..1u16 << people).filter(|set| family >> set & 1 == 1).collect();
            if let Ok(groups) = reference::plan(people, &required, &[]) {
                // one policy for each family of groups
                policies.entry(groups).or_insert(required);
            }
        }
        for (groups, required) in policies {
            let ours = own(people, &groups);
            assert_eq!(unit::judge(people, &required, &[], &ours), Ok(Verdict::Suits));
            for pieces in 1..=groups.len() {
                let mut suit = 0;
                pick(people, pieces, 0, &mut Vec::new(), &mut |holders| {
                    let list = list_of(people, holders);
                    let verdict = judge(people, &required, &[], &list).unwrap();
                    if people < 4 {
                        assert_eq!(unit::judge(people, &required, &[], &list), Ok(verdict));
                    }
                    suit += (verdict == Verdict::Suits) as usize;
                });
                assert_eq!(suit, (pieces == groups.len()) as usize, "{people} {required:?} {pieces}");
            }
        }
    }
}

/// With fewer needed than there are, a list can be shorter than ours: any five of eight, a piece each, which our 70 pieces do as well.
#[test]
fn a_threshold_is_shorter() {
    let fives = sets(8, 5);
    let ours = own(8, &plan(8, &fives).unwrap());
    let each = Holdings { people: 8, pieces: 8, needed: 5, marks: (0..64).map(|at| (at % 9 == 0) as u8).collect() };
    assert_eq!(ours.pieces, 70);
    for list in [&ours, &each] {
        assert_eq!(unit::judge(8, &fives, &[], list), Ok(Verdict::Suits));
    }
    let all = Holdings { needed: 8, ..each };
    assert_eq!(unit::judge(8, &fives, &[], &all), Ok(Verdict::Few(31)));
}
