//! Calls at a desk of two clients: visits that come to their end, and calls with one thing wrong; and desks that hold what no calls left there.
use crate::inputs::{with_word, year};
use crate::mixed;
use crate::numbers::Numbers;
use crate::pairs::damage;
use crate::reference::{block_words, bytes_of, Desk, Refusal, OPENING};
use crate::unit;

/// What a client does; what is lent with asking is what it has to show afterwards, too.
#[derive(Clone, Debug)]
pub enum Call {
    Open(usize, [usize; 5]),
    HandIn(usize, Vec<u8>),
    Ask(usize, Vec<u16>),
    Close(usize),
}

impl Call {
    pub fn client(&self) -> usize {
        match self {
            Call::Open(client, _) | Call::HandIn(client, _) | Call::Ask(client, _) | Call::Close(client) => *client,
        }
    }

    /// The answer of the independent implementation, and the lent words then.
    pub fn expected(&self, desk: &mut Desk) -> (Result<usize, Refusal>, Vec<u16>) {
        let mut lent = Vec::new();
        let said = match self {
            Call::Open(client, words) => desk.open(*client, *words),
            Call::HandIn(client, block) => desk.hand_in(*client, block),
            Call::Ask(client, out) => {
                lent = out.clone();
                desk.ask(*client, &mut lent)
            }
            Call::Close(client) => desk.close(*client),
        };
        (said, lent)
    }

    /// The same of the library.
    pub fn said(&self, desk: &mut Desk) -> (Result<usize, Refusal>, Vec<u16>) {
        let mut lent = Vec::new();
        let said = match self {
            Call::Open(client, words) => unit::desk_open(desk, *client, *words),
            Call::HandIn(client, block) => unit::desk_hand_in(desk, *client, block),
            Call::Ask(client, out) => {
                lent = out.clone();
                unit::desk_ask(desk, *client, &mut lent)
            }
            Call::Close(client) => unit::desk_close(desk, *client),
        };
        (said, lent)
    }
}

/// What a client comes with: five words, and the values of each piece. Any values are pieces of some secret.
#[derive(Clone)]
pub struct Visit {
    pub words: [u16; 5],
    values: Vec<Vec<u16>>,
}

impl Visit {
    /// Every other one has few pieces; others leave the other client many slots, few or none.
    pub fn any(n: &mut Numbers) -> Visit {
        let k = match n.below(8) {
            0..=3 => 1 + n.below(4),
            4 => 1 + n.below(12),
            5 => [1, 2, 34, 35, 36, 66, 67, 68, 69, 70][n.below(10)],
            6 => 60 + n.below(11),
            _ => 1 + n.below(70),
        };
        Visit::of(n, k)
    }

    /// With this k; the other words often at an end of their range.
    pub fn of(n: &mut Numbers, k: usize) -> Visit {
        let mut end = |least: usize, most: usize| match n.below(4) {
            0 => least,
            1 => most,
            _ => least + n.below(most - least + 1),
        };
        let (deal, people, w) = (end(1, 32748), end(1, 8), end(1, 16));
        let year = year(n);
        let values = (0..k).map(|_| (0..w).map(|_| [n.word(), 0, 32748][n.below(4).min(2)]).collect()).collect();
        Visit { words: [deal, people, k, w, year].map(|word| word as u16), values }
    }

    /// The words as they are lent.
    pub fn opening(&self) -> [usize; 5] {
        self.words.map(usize::from)
    }

    fn pieces(&self) -> usize {
        self.words[2] as usize
    }

    /// The block of piece j, from 1, of some holder.
    pub fn block(&self, n: &mut Numbers, j: usize) -> Vec<u8> {
        let [deal, people, k, w, year] = self.words;
        let holder = 1 + n.below(people as usize) as u16;
        bytes_of(&block_words([1987, deal, holder, people, k, w, j as u16], &self.values[j - 1], year)).to_vec()
    }
}

/// A number that no client has; some are a client's in their low bits.
fn nobody(n: &mut Numbers) -> usize {
    [0, 3, 255, 256 + 1, 65536 + 2, (1 << 32) + 1, (1 << 40) + 2, usize::MAX - 1, usize::MAX][n.below(9)]
}

/// Five words of which one to three are at an end of their range, or just outside it, or good ones in their low bits.
fn at_ends(n: &mut Numbers, mut words: [usize; 5]) -> [usize; 5] {
    for _ in 0..1 + n.below(3) {
        let at = n.below(5);
        let (_, least, most) = OPENING[at];
        words[at] = [least, most, most + 1, least.wrapping_sub(1), 65536 + words[at], (1 << 40) + words[at], usize::MAX][n.below(7)];
    }
    words
}

/// A block that is not what the visit's client should hand in, and may be refused for it.
fn other_block(n: &mut Numbers, desk: &Desk, client: usize, mine: &Visit, theirs: &Visit) -> Vec<u8> {
    let j = 1 + n.below(mine.pieces());
    let mut block = mine.block(n, j);
    match n.below(10) {
        0 => block.resize([0, 1, 511, 513, 1024, n.below(2000)][n.below(6)], n.next() as u8),
        1..=4 => damage(n, &mut block),
        5 => {
            let piece = 1 + n.below(theirs.pieces());
            block = theirs.block(n, piece);
        }
        6 | 7 => {
            let label = mixed::labels(n, mine.words, 2)[1];
            block = mixed::relabel(&block, label);
        }
        _ => {
            // the first piece that is kept, with another value
            let kept = (1..=mine.pieces()).find(|j| desk.is_open(client) && desk.words[client - 1] == mine.opening() && desk.kept(client, *j).is_some());
            let j = kept.unwrap_or(j);
            block = mine.block(n, j);
            let i = n.below(mine.words[3] as usize);
            let value = (mine.values[j - 1][i] as usize + 1 + n.below(32748)) % 32749;
            with_word(&mut block, 8 + i, value as u16, true);
        }
    }
    block
}

/// So many words to be written: as many as are needed, mostly, and else one fewer, one more, sixteen, none.
fn lent(n: &mut Numbers, w: usize) -> Vec<u16> {
    let room = [w, w, w, w + 1, 16, w - 1, w - 1, 0][n.below(8)];
    (0..room).map(|_| n.next() as u16).collect()
}

/// The next call of either client. Of the visits, the one of a client that is not open may be changed before it opens, unless the clients are
/// patient: such a one comes with what it has, and does not close before it has all pieces.
pub fn call(n: &mut Numbers, desk: &Desk, visits: &mut [Visit; 2], patient: bool) -> Call {
    let at = n.below(2);
    let client = if n.once_in(20) { nobody(n) } else { at + 1 };
    if !desk.is_open(at + 1) {
        if n.once_in(3) && !patient {
            visits[at] = Visit::any(n);
        }
        let mine = &visits[at];
        return match n.below(12) {
            0 => {
                let j = 1 + n.below(mine.pieces());
                Call::HandIn(client, mine.block(n, j))
            }
            1 => Call::Ask(client, lent(n, mine.words[3] as usize)),
            2 => Call::Close(client),
            3 | 4 => Call::Open(client, at_ends(n, mine.opening())),
            _ => Call::Open(client, mine.opening()),
        };
    }
    let (mine, theirs) = (visits[at].clone(), visits[1 - at].clone());
    // the first piece that is not kept
    let next = (1..=mine.pieces()).find(|j| desk.words[at] == mine.opening() && desk.kept(at + 1, *j).is_none());
    let does = n.below(20);
    let complete = desk.words[at] == mine.opening() && next.is_none();
    match if complete && n.once_in(3) { 12 } else if patient && does > 16 && next.is_some() { 0 } else { does } {
        0..=8 => {
            let j = next.filter(|_| !n.once_in(4)).unwrap_or(1 + n.below(mine.pieces()));
            Call::HandIn(client, mine.block(n, j))
        }
        9..=11 => Call::HandIn(client, other_block(n, desk, at + 1, &mine, &theirs)),
        12..=15 => Call::Ask(client, lent(n, mine.words[3] as usize)),
        16 => {
            let other = Visit::any(n).opening();
            Call::Open(client, if n.once_in(2) { mine.opening() } else { at_ends(n, other) })
        }
        17 if n.once_in(2) => Call::HandIn(client, theirs.block(n, 1)),
        _ => Call::Close(client),
    }
}

/// A number that a slot may have, were it not for the calls: often at the edge of a range.
fn any_number(n: &mut Numbers) -> u16 {
    [0, 1, 2, 32748, 32749, 32767, 65535, n.next() as u16][n.below(8)]
}

/// A desk that no calls left so, and what its clients come with. Where the words of a client are those of an opening, the visit has them.
pub fn spoilt(n: &mut Numbers) -> (Desk, [Visit; 2]) {
    let mut desk = Desk::fresh();
    let visits = [Visit::any(n), Visit::any(n)];
    for at in 0..2 {
        desk.words[at] = match n.below(6) {
            0 => [0; 5],
            1 => at_ends(n, visits[at].opening()),
            2 => [0; 5].map(|_: usize| n.next() as usize >> n.below(64)),
            _ => visits[at].opening(),
        };
    }
    // one in so many numbers of the store is spoilt, and the rest is as calls might have left it
    let often = [1, 2, 20, 200][n.below(4)];
    let marked = n.below(5);
    for (at, slot) in desk.slots.iter_mut().enumerate() {
        let values = visits.iter().zip([at + 1, 70 - at]).find(|(visit, j)| *j <= visit.pieces()).map(|(visit, j)| &visit.values[j - 1]);
        if let (Some(values), true) = (values, n.below(4) < marked) {
            slot[0] = 1;
            slot[1..=values.len()].copy_from_slice(values);
        }
        for number in slot.iter_mut() {
            if n.once_in(often) {
                *number = any_number(n);
            }
        }
    }
    (desk, visits)
}
