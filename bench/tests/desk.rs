//! The desk: two clients' calls in any order, at one desk of the library; at one of the independent implementation, the state compared whole; and at
//! two desks of which each knows one client, with the number of slots that the other has. And a count of what was met.
use bench::desks::{call, Call, Visit};
use bench::met::{Kinds, Met};
use bench::numbers::Numbers;
use bench::reference::{self, words_of, Desk, Own, Refusal, BLOCK, OPENING};
use bench::unit;

type Said = Result<usize, Refusal>;

/// What is met, and how often at least in each half of the histories.
const OFTEN: [&str; 42] = [
    "opened, client 1",
    "opened, client 2",
    "opened, all that was left",
    "opened again, after FULL",
    "opened again, after a closing",
    "opening: NOCLIENT",
    "opening: BUSY",
    "opening: BUSY, and a bad word",
    "opening: HEADER, word 2",
    "opening: HEADER, word 4",
    "opening: HEADER, word 5",
    "opening: HEADER, word 6",
    "opening: HEADER, word 24",
    "opening: FULL",
    "opening: FULL, by one",
    "handing in: NOCLIENT",
    "handing in: CLOSED",
    "handing in: TORN, of fewer bytes",
    "handing in: TORN, of more bytes",
    "handing in: UNREAD",
    "handing in: CHECK",
    "handing in: HEADER",
    "handing in: MIXED, word 2",
    "handing in: MIXED, word 4",
    "handing in: MIXED, word 5",
    "handing in: MIXED, word 6",
    "handing in: MIXED, word 24",
    "handing in: MIXED, the other's deal",
    "handing in: CONFLICT",
    "taken, the first piece",
    "taken, the last piece",
    "taken, a piece that was there",
    "asking: NOCLIENT",
    "asking: CLOSED",
    "asking: SHORT, no piece",
    "asking: SHORT, some pieces",
    "asking: ROOM, a word too few",
    "joined",
    "joined, once more",
    "joined, of 30 pieces or more",
    "closed",
    "both closed",
];

/// What one client has done since its last opening, for the names of what is met, and for joining.
#[derive(Default)]
struct Since {
    words: [usize; 5],
    taken: Vec<Vec<u8>>,
    was_full: Option<[usize; 5]>,
    joined: bool,
    closed: bool,
}

/// A name for the call and what it was answered.
fn name(x: &Call, said: &Said, since: &Since, others: &Since, left: usize) -> String {
    let number = said.as_ref().map_or_else(|refusal| refusal.number, |_| 0);
    let name = |kind: &str, rest: &str| format!("{kind}: {rest}");
    match (x, number) {
        (Call::Open(client, words), 0) => match () {
            _ if words[2] == left => "opened, all that was left".into(),
            _ if since.was_full == Some(*words) => "opened again, after FULL".into(),
            _ if since.closed => "opened again, after a closing".into(),
            _ => format!("opened, client {client}"),
        },
        (Call::Open(_, words), 27) if (0..5).any(|at| words[at] > OPENING[at].2) => name("opening", "BUSY, and a bad word"),
        (Call::Open(..), 27) => name("opening", "BUSY"),
        (Call::Open(..), 17) => name("opening", &format!("HEADER, word {}", said.unwrap_err().b)),
        (Call::Open(_, words), 28) => name("opening", if words[2] == left + 1 { "FULL, by one" } else { "FULL" }),
        (Call::HandIn(_, block), 0) => match said.unwrap() {
            _ if since.taken.iter().any(|taken| taken[12..14] == block[12..14]) => "taken, a piece that was there".into(),
            count if count == since.words[2] => "taken, the last piece".into(),
            1 => "taken, the first piece".into(),
            _ => "taken".into(),
        },
        (Call::HandIn(_, block), 13) => name("handing in", if block.len() < BLOCK { "TORN, of fewer bytes" } else { "TORN, of more bytes" }),
        (Call::HandIn(_, block), 18) => {
            let words = words_of(block);
            let unlike = |words: [usize; 5]| (0..5).find(|at| words[*at] != words_of(block)[OPENING[*at].0 - 1] as usize);
            match unlike(since.words) {
                Some(_) if unlike(others.words).is_none() => name("handing in", "MIXED, the other's deal"),
                Some(at) => name("handing in", &format!("MIXED, word {}", OPENING[at].0)),
                None => panic!("MIXED, of {:?}", &words[..24]),
            }
        }
        (Call::HandIn(..), 15..=17) => name("handing in", ["UNREAD", "CHECK", "HEADER"][number - 15]),
        (Call::HandIn(..), 19) => name("handing in", "CONFLICT"),
        (Call::Ask(..), 0) if since.words[2] >= 30 => "joined, of 30 pieces or more".into(),
        (Call::Ask(..), 0) => if since.joined { "joined, once more" } else { "joined" }.into(),
        (Call::Ask(..), 20) => name("asking", if said.unwrap_err().a == 0 { "SHORT, no piece" } else { "SHORT, some pieces" }),
        (Call::Ask(_, out), 12) => name("asking", if out.len() + 1 == since.words[3] { "ROOM, a word too few" } else { "ROOM" }),
        (Call::Close(_), 0) => "closed".into(),
        _ => {
            let kind = match x {
                Call::Open(..) => "opening",
                Call::HandIn(..) => "handing in",
                Call::Ask(..) => "asking",
                Call::Close(_) => "closing",
            };
            name(kind, if number == 26 { "NOCLIENT" } else { "CLOSED" })
        }
    }
}

/// What a client's own desk, and one number, make of a call: an opening is FULL where its k is more than the other leaves, and is then not made
/// at the own desk. A call of nobody is NOCLIENT.
fn apart(x: &Call, own: &mut [Own; 2], reserved: [usize; 2]) -> (Said, Vec<u16>) {
    let client = x.client();
    if client != 1 && client != 2 {
        let lent = if let Call::Ask(_, out) = x { out.clone() } else { Vec::new() };
        return (Err(Refusal { number: 26, a: 0, b: 0 }), lent);
    }
    let own = &mut own[client - 1];
    let mut lent = Vec::new();
    let said = match x {
        Call::Open(_, words) => match own.clone().open(*words) {
            Ok(k) if k > 70 - reserved[2 - client] => Err(Refusal { number: 28, a: 0, b: 0 }),
            _ => own.open(*words),
        },
        Call::HandIn(_, block) => own.hand_in(block),
        Call::Ask(_, out) => {
            lent = out.clone();
            own.ask(&mut lent)
        }
        Call::Close(_) => own.close(),
    };
    (said, lent)
}

/// Asking is joining the blocks that were taken, where there are any, and else SHORT with k.
fn as_joining(out: &[u16], since: &Since, said: &Said, lent: &[u16], by_the_library: bool) {
    let mut joined = out.to_vec();
    let pile = since.taken.concat();
    let expected = match since.taken.len() {
        0 => Err(Refusal { number: 20, a: 0, b: since.words[2] }),
        _ if by_the_library => unit::join(&pile, &mut joined),
        _ => reference::join(&pile, &mut joined),
    };
    assert_eq!((said, lent), (&expected, &joined[..]), "asking is not joining, {} blocks", since.taken.len());
}

fn histories(seed: u64, count: usize) {
    let mut n = Numbers::new(seed);
    let (mut met, mut kinds, mut calls, mut rejoined) = (Met::default(), Kinds::default(), 0, 0);
    for history in 0..count {
        let patient = history % 200 == 0;
        let many = [[35, 35], [69, 1], [2, 68], [70, 70], [30, 41]][history / 200 % 5];
        let mut visits = if patient { many.map(|k| Visit::of(&mut n, k)) } else { [(); 2].map(|()| Visit::any(&mut n)) };
        let (mut ours, mut theirs) = (Desk::fresh(), Desk::fresh());
        let (mut own, mut reserved, mut since) = ([Own::default(), Own::default()], [0; 2], [Since::default(), Since::default()]);
        for _ in 0..if patient { 400 } else { 4 + n.below(16) } {
            let x = call(&mut n, &theirs, &mut visits, patient);
            let before = theirs.clone();
            let (said, lent) = x.expected(&mut theirs);
            assert_eq!(apart(&x, &mut own, reserved), (said, lent.clone()), "two desks apart, {x:?}");
            assert_eq!(x.said(&mut ours), (said, lent.clone()), "{x:?} at {:?}", before.words);
            assert!(ours == theirs, "the state differs after {x:?}");
            if said.is_err() || matches!(x, Call::Ask(..)) {
                assert!(ours == before, "a refusal, or asking, changed the desk");
            }
            calls += 1;
            met.note(&said);
            let client = x.client();
            if client != 1 && client != 2 {
                kinds.note(name(&x, &said, &Since::default(), &Since::default(), 0));
                continue;
            }
            let at = client - 1;
            kinds.note(name(&x, &said, &since[at], &since[1 - at], 70 - reserved[1 - at]));
            match (&x, said) {
                (Call::Open(_, words), Ok(k)) => {
                    reserved[at] = k;
                    since[at] = Since { words: *words, closed: true, ..Since::default() };
                }
                (Call::Open(_, words), Err(Refusal { number: 28, .. })) => since[at].was_full = Some(*words),
                (Call::HandIn(_, block), Ok(_)) => since[at].taken.push(block.clone()),
                (Call::Ask(_, out), _) if reserved[at] > 0 && since[at].taken.len() <= 560 => {
                    rejoined += 1;
                    as_joining(out, &since[at], &said, &lent, rejoined % 8 == 0);
                    since[at].joined |= said.is_ok();
                }
                (Call::Close(_), Ok(_)) => {
                    reserved[at] = 0;
                    since[at] = Since { closed: true, ..Since::default() };
                }
                _ => (),
            }
            assert!(reserved[0] + reserved[1] <= 70);
            if reserved == [0; 2] {
                kinds.note("both closed");
                assert!(ours == Desk::fresh(), "both are closed, and something is left");
            }
        }
    }
    println!("{calls} calls");
    met.shows(&[0, 12, 13, 15, 16, 17, 18, 19, 20, 26, 27, 28, 29]);
    kinds.shows(&OFTEN, 300);
}

#[test]
fn histories_one_half() {
    histories(61, 50_000);
}

#[test]
fn histories_other_half() {
    histories(62, 50_000);
}
