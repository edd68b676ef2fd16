//! Holding lists, each with the policy that it is judged by: our own, our own with something changed, those of other makers; and such as are not
//! in order, for one reason or several.
use crate::inputs;
use crate::numbers::Numbers;
use crate::reference::{own, plan, Holdings};

/// What a judge is asked; what kind of list it is, before anything was spoilt; and what was.
#[derive(Debug)]
pub struct Case {
    pub kind: &'static str,
    pub faults: Vec<&'static str>,
    pub people: usize,
    pub required: Vec<u16>,
    pub forbidden: Vec<u16>,
    pub list: Holdings,
}

/// A policy that planning accepts, with the groups of its pieces; or one that it refuses.
fn accepted(n: &mut Numbers) -> (usize, Vec<u16>, Vec<u16>, Vec<u16>) {
    loop {
        let (people, required, forbidden) = inputs::policy(n);
        if let Ok(groups) = plan(people, &required, &forbidden) {
            return (people, required, forbidden, groups);
        }
    }
}

fn refused(n: &mut Numbers) -> (usize, Vec<u16>, Vec<u16>) {
    loop {
        let (people, required, forbidden) = inputs::policy(n);
        if plan(people, &required, &forbidden).is_err() {
            return (people, required, forbidden);
        }
    }
}

/// One more column of marks: everybody has that piece, or nobody.
fn with_column(list: &mut Holdings, mark: u8) {
    let rows = list.marks.chunks_exact(list.pieces).flat_map(|row| [row, &[mark]].concat());
    list.marks = rows.collect();
    list.pieces += 1;
}

/// The same list with its pieces in another order.
fn shuffled(n: &mut Numbers, list: &mut Holdings) {
    let mut order: Vec<usize> = (0..list.pieces).collect();
    n.shuffle(&mut order);
    let rows = list.marks.chunks_exact(list.pieces).flat_map(|row| order.iter().map(|j| row[*j]));
    list.marks = rows.collect();
}

/// Our own holdings, as they are or changed; an accepted policy has two pieces at least.
fn ours(n: &mut Numbers) -> Case {
    let (people, required, forbidden, groups) = accepted(n);
    let mut list = own(people, &groups);
    let at = n.below(list.marks.len());
    let kind = match n.below(6) {
        0 => "our own",
        1 => {
            shuffled(n, &mut list);
            "our own, in another order"
        }
        2 if list.pieces < 70 => {
            // a piece that nobody has changes nothing, and one that everybody has is one more that is needed
            let all = n.once_in(2);
            with_column(&mut list, all as u8);
            list.needed += all as usize;
            "our own, and a piece more"
        }
        3 => {
            list.needed -= 1;
            "our own, one fewer needed"
        }
        _ => {
            list.marks[at] ^= 1;
            if list.marks[at] == 0 { "our own, a mark less" } else { "our own, a mark more" }
        }
    };
    Case { kind, faults: Vec::new(), people, required, forbidden, list }
}

/// Rows of any marks, one mark of so many being 1.
fn any_marks(n: &mut Numbers, people: usize) -> Holdings {
    let pieces = 1 + if n.once_in(4) { n.below(70) } else { n.below(10) };
    let rare = 1 + n.below(4);
    let marks = (0..people * pieces).map(|_| n.once_in(rare) as u8).collect();
    Holdings { people, pieces, needed: 1 + n.below(pieces), marks }
}

/// Every person has so many pieces, and nobody has another's.
fn weighted(n: &mut Numbers, weights: &[usize]) -> Holdings {
    let pieces: usize = weights.iter().sum();
    let mut marks = vec![0; weights.len() * pieces];
    let mut from = 0;
    for (person, weight) in weights.iter().enumerate() {
        marks[person * pieces + from..][..*weight].fill(1);
        from += weight;
    }
    let mut list = Holdings { people: weights.len(), pieces, needed: 1 + n.below(pieces), marks };
    shuffled(n, &mut list);
    list
}

/// A list of another maker for so many people.
fn theirs(n: &mut Numbers, people: usize) -> (&'static str, Holdings) {
    match n.below(4) {
        0 => ("one piece each", weighted(n, &vec![1; people])),
        1 => {
            let weights: Vec<usize> = (0..people).map(|_| 1 + n.below(5)).collect();
            ("some have more than others", weighted(n, &weights))
        }
        2 => {
            let mut list = any_marks(n, people);
            list.needed = list.pieces;
            ("all are needed", list)
        }
        _ => ("any marks", any_marks(n, people)),
    }
}

/// Whether a group has as many different pieces as are needed.
fn enough(list: &Holdings, group: u16) -> bool {
    let has = |j: &usize| (0..list.people).any(|person| group >> person & 1 == 1 && list.marks[person * list.pieces + j] == 1);
    (0..list.pieces).filter(has).count() >= list.needed
}

/// A policy that a list suits: required are the groups that have enough, and of which no part has; some groups around them too; and forbidden
/// are some that have not. Where somebody alone has enough, or all together have not, no policy is accepted for it.
fn policy_for(n: &mut Numbers, list: &Holdings) -> (Vec<u16>, Vec<u16>) {
    let (mut open, shut): (Vec<u16>, Vec<u16>) = (0..1 << list.people).partition(|group| enough(list, *group));
    let least = |group: &u16| (0..list.people).all(|person| group >> person & 1 == 0 || !open.contains(&(group & !(1 << person))));
    let mut required: Vec<u16> = open.iter().copied().filter(least).collect();
    n.shuffle(&mut open);
    required.extend(open.iter().take(n.below(3)));
    n.shuffle(&mut required);
    let forbidden = (0..n.below(3)).filter(|_| !shut.is_empty()).map(|_| shut[n.below(shut.len())]).collect();
    (required, forbidden)
}

/// Another maker's list: by any policy, by one that it suits, or by one of which a required set is left out, or cut to a part.
fn others(n: &mut Numbers) -> Case {
    if n.once_in(4) {
        let (people, required, forbidden, _) = accepted(n);
        let (kind, list) = theirs(n, people);
        return Case { kind, faults: Vec::new(), people, required, forbidden, list };
    }
    loop {
        let people = 2 + n.below(7);
        let (_, list) = theirs(n, people);
        let (mut required, forbidden) = policy_for(n, &list);
        if plan(people, &required, &forbidden).is_err() {
            continue;
        }
        let at = n.below(required.len());
        let kind = match n.below(5) {
            0 if required.len() > 1 => {
                required.swap_remove(at);
                "a required set is left out"
            }
            1 if required[at].count_ones() > 2 => {
                required[at] &= required[at] - 1;
                "a required set is cut"
            }
            _ => "by its own policy",
        };
        return Case { kind, faults: Vec::new(), people, required, forbidden, list };
    }
}

/// A list by a policy that planning refuses.
fn unplanned(n: &mut Numbers) -> Case {
    let (people, required, forbidden) = refused(n);
    let (_, list) = theirs(n, people.clamp(1, 8));
    Case { kind: "a policy that is refused", faults: Vec::new(), people, required, forbidden, list }
}

/// What lists are not in order by. Several may fall on one list, and a later one may undo an earlier one.
pub const FAULTS: [&str; 12] = [
    "other people, and rows for these",
    "other people, and rows for those of the policy",
    "no pieces",
    "71 pieces",
    "2^60 pieces",
    "pieces of which a narrower product is right",
    "none needed",
    "one more needed than there are",
    "a mark too few",
    "a mark too many",
    "a mark of 2",
    "a mark of 255",
];

fn spoil(n: &mut Numbers, case: &mut Case) {
    let list = &mut case.list;
    let fault = n.below(FAULTS.len());
    let (people, pieces) = (list.people, list.pieces);
    let at = [0, list.marks.len().saturating_sub(1), n.below(list.marks.len().max(1))][n.below(3)];
    match fault {
        0 => {
            list.people = if n.once_in(2) { people + 1 } else { people.saturating_sub(1) };
            list.marks.resize(list.people.min(9) * pieces.min(71), 1);
        }
        1 => list.people = [0, people + 1, people + 256, people.wrapping_add(1 << 32), usize::MAX][n.below(5)],
        2 => {
            list.pieces = 0;
            list.needed = n.below(2);
            list.marks.truncate(if n.once_in(2) { 0 } else { list.marks.len() });
        }
        3 => {
            list.pieces = 71;
            list.marks.resize(people.min(8) * 71, 0);
        }
        4 => list.pieces = [1 << 60, 1 << 63, usize::MAX][n.below(3)],
        5 => list.pieces = pieces.wrapping_add((1u128 << 64 >> people.trailing_zeros().clamp(1, 3)) as usize),
        6 => list.needed = 0,
        7 => list.needed = pieces.wrapping_add([1, 1, 2, 256, 1 << 32][n.below(5)]),
        8 => {
            list.marks.pop();
        }
        9 => list.marks.push(n.below(2) as u8),
        _ => {
            if let Some(mark) = list.marks.get_mut(at) {
                *mark = if fault == 10 { 2 } else { 255 };
            }
        }
    }
    case.faults.push(FAULTS[fault]);
}

/// A list and a policy. One list in four is spoilt, and one in forty twice.
pub fn case(n: &mut Numbers) -> Case {
    let mut case = match n.below(8) {
        0..=2 => ours(n),
        7 => unplanned(n),
        _ => others(n),
    };
    if n.once_in(4) {
        spoil(n, &mut case);
        if n.once_in(10) {
            spoil(n, &mut case);
        }
    }
    case
}
