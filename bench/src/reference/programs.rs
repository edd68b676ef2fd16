//! The programs (SCOPE 7): a policy text to its listing, a pile to its line, a scratched pile to the salvaged one.

use super::{held, join, plan, refuse, salvage, Refusal};

fn refused(r: Refusal) -> Vec<u8> {
    format!("refused {} {} {}\n", r.number, r.a, r.b).into_bytes()
}

/// A line `need` or `bar`: the set of its digits.
fn set_of(digits: &[u8]) -> Option<u16> {
    let mut set = 0;
    let mut last = b'0';
    for pair in digits.chunks(2) {
        match pair {
            [b' ', digit @ b'1'..=b'9'] if *digit > last => {
                set |= 1 << (digit - b'1');
                last = *digit;
            }
            _ => return None,
        }
    }
    Some(set)
}

/// A policy text: people and the two lists, or the first bad line.
pub fn read_policy(text: &[u8]) -> Result<(usize, Vec<u16>, Vec<u16>), Refusal> {
    if text.len() > 16384 {
        return refuse(21, 0, 0);
    }
    let (mut people, mut required, mut forbidden) = (0, Vec::new(), Vec::new());
    let mut lines: Vec<&[u8]> = text.split(|byte| *byte == b'\n').collect();
    let torn = lines.pop().unwrap();
    for (at, line) in lines.iter().enumerate() {
        if at == 0 {
            match line.strip_prefix(b"people ") {
                Some([digit @ b'0'..=b'9']) => people = (digit - b'0') as usize,
                _ => return refuse(21, 1, 0),
            }
            continue;
        }
        let (list, rest) = match (line.strip_prefix(b"need"), line.strip_prefix(b"bar")) {
            (Some(rest), _) => (&mut required, rest),
            (_, Some(rest)) => (&mut forbidden, rest),
            _ => return refuse(21, at + 1, 0),
        };
        match set_of(rest) {
            Some(set) => list.push(set),
            None => return refuse(21, at + 1, 0),
        }
    }
    if !torn.is_empty() || lines.is_empty() {
        return refuse(21, lines.len() + 1, 0);
    }
    Ok((people, required, forbidden))
}

/// What the listing program prints.
pub fn listing(text: &[u8]) -> Vec<u8> {
    let (people, required, forbidden) = match read_policy(text) {
        Ok(policy) => policy,
        Err(r) => return refused(r),
    };
    let groups = match plan(people, &required, &forbidden) {
        Ok(groups) => groups,
        Err(r) => return refused(r),
    };
    let mut out = format!("people {} pieces {}\n", people, groups.len());
    for (j, group) in groups.iter().enumerate() {
        out += &format!("piece {} missing", j + 1);
        for person in (1..=people).filter(|person| group >> (person - 1) & 1 == 1) {
            out += &format!(" {person}");
        }
        out += "\n";
    }
    for holder in 1..=people {
        out += &format!("holder {holder} has");
        for j in held(&groups, holder) {
            out += &format!(" {j}");
        }
        out += "\n";
    }
    out.into_bytes()
}

/// What the joining program prints.
pub fn joining(pile: &[u8]) -> Vec<u8> {
    if pile.len() > 65536 {
        return refused(Refusal { number: 14, a: 0, b: 0 });
    }
    let mut out = [0; 16];
    match join(pile, &mut out) {
        Ok(w) => {
            let words: Vec<String> = out[..w].iter().map(|word| format!(" {word}")).collect();
            format!("secret{}\n", words.concat()).into_bytes()
        }
        Err(r) => refused(r),
    }
}

/// What the salvaging program writes to standard output and what it says on standard error.
pub fn salvaging(pile: &[u8]) -> (Vec<u8>, Vec<u8>) {
    if pile.len() > 65536 {
        return (Vec::new(), refused(Refusal { number: 14, a: 0, b: 0 }));
    }
    let (mut pile, mut list) = (pile.to_vec(), [0; 256]);
    match salvage(&mut pile, &mut list) {
        Ok(count) => {
            let places: String = list.chunks(2).take(count).map(|place| format!("block {} word {}\n", place[0], place[1])).collect();
            (pile, format!("rebuilt {count}\n{places}").into_bytes())
        }
        Err(r) => (Vec::new(), refused(r)),
    }
}
