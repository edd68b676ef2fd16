//! Another maker's holdings (SCOPE 2.1): whether a holding list suits a policy. A person's pieces are one number with a bit for each.

use super::{held, plan, refuse, Refusal};

/// A holding list: its people, its pieces, how many of them are needed, and the rows of marks, person 1's first.
#[derive(Clone, Debug)]
pub struct Holdings {
    pub people: usize,
    pub pieces: usize,
    pub needed: usize,
    pub marks: Vec<u8>,
}

/// What is said of a list: it suits; or the first group for which it does not, an authorised one with too few pieces or another one with enough.
#[derive(Clone, Copy, Debug, PartialEq, Eq)]
pub enum Verdict {
    Suits,
    Few(usize),
    Many(usize),
}

/// Judging a holding list by a policy.
pub fn judge(people: usize, required: &[u16], forbidden: &[u16], list: &Holdings) -> Result<Verdict, Refusal> {
    plan(people, required, forbidden)?;
    if list.people != people
        || !(1..=70).contains(&list.pieces)
        || !(1..=list.pieces).contains(&list.needed)
        || list.marks.len() != people * list.pieces
        || list.marks.iter().any(|mark| *mark != 0 && *mark != 1)
    {
        return refuse(30, 0, 0);
    }
    let pieces: Vec<u128> = list.marks.chunks_exact(list.pieces).map(|row| row.iter().fold(0, |all, mark| all << 1 | *mark as u128)).collect();
    for group in 0..1usize << people {
        let theirs = (0..people).filter(|person| group >> person & 1 == 1).fold(0, |all, person| all | pieces[person]);
        let enough = theirs.count_ones() as usize >= list.needed;
        let authorised = required.iter().any(|set| *set as usize & !group == 0);
        match (authorised, enough) {
            (true, false) => return Ok(Verdict::Few(group)),
            (false, true) => return Ok(Verdict::Many(group)),
            _ => {}
        }
    }
    Ok(Verdict::Suits)
}

/// Our own holdings as a list, from the groups of the pieces: all pieces are needed.
pub fn own(people: usize, groups: &[u16]) -> Holdings {
    let row = |person: usize| {
        let mut row = vec![0; groups.len()];
        held(groups, person).into_iter().for_each(|j| row[j - 1] = 1);
        row
    };
    Holdings { people, pieces: groups.len(), needed: groups.len(), marks: (1..=people).flat_map(row).collect() }
}
