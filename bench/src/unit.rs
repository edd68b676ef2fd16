//! The proved library behind safe functions: linked where this machine is what the library is for, x86-64, and else asked through a pipe,
//! running in an emulator.
#[cfg(target_arch = "x86_64")]
#[path = "unit/linked.rs"]
mod calls;
#[cfg(not(target_arch = "x86_64"))]
#[path = "unit/served.rs"]
mod calls;

use crate::reference::{Deal, Desk, Holdings, Refusal, Verdict};

/// What a call answers, as include/titmeadow.h has it.
#[repr(C)]
pub struct Answer {
    number: usize,
    a: usize,
    b: usize,
}

impl Answer {
    fn result(self) -> Result<usize, Refusal> {
        match self.number {
            0 => Ok(self.a),
            number => Err(Refusal { number, a: self.a, b: self.b }),
        }
    }
}

/// k; the first k places get the groups of the pieces.
pub fn plan(people: usize, required: &[u16], forbidden: &[u16], groups: &mut [u16; 70]) -> Result<usize, Refusal> {
    calls::plan(people, required, forbidden, groups).result()
}

/// Whether a holding list suits a policy. Of the answer's two places no other pair than these is a verdict.
pub fn judge(people: usize, required: &[u16], forbidden: &[u16], list: &Holdings) -> Result<Verdict, Refusal> {
    let said = calls::judge(people, required, forbidden, list);
    match (said.a, said.b) {
        _ if said.number != 0 => Err(Refusal { number: said.number, a: said.a, b: said.b }),
        (0, 0) => Ok(Verdict::Suits),
        (1.., 1) => Ok(Verdict::Few(said.a)),
        (1.., 2) => Ok(Verdict::Many(said.a)),
        (a, b) => panic!("a verdict of {a} and {b}: {people} {required:?} {list:?}"),
    }
}

/// One holder's card into the front of `out`; the number of blocks.
pub fn deal(d: &Deal, holder: usize, out: &mut [u8]) -> Result<usize, Refusal> {
    calls::deal(d, holder, out).result()
}

/// The same by sets.
pub fn deal_by_sets(d: &Deal, holder: usize, out: &mut [u8]) -> Result<usize, Refusal> {
    calls::deal_by_sets(d, holder, out).result()
}

/// The secret into the front of `out`; the number of its words.
pub fn join(pile: &[u8], out: &mut [u16]) -> Result<usize, Refusal> {
    calls::join(pile, out).result()
}

/// The same by differences alone.
pub fn join_by_differences(pile: &[u8], out: &mut [u16]) -> Result<usize, Refusal> {
    calls::join_by_differences(pile, out).result()
}

/// The same by weights that are ready made.
pub fn join_by_weights(pile: &[u8], out: &mut [u16]) -> Result<usize, Refusal> {
    calls::join_by_weights(pile, out).result()
}

/// All joiners: every pile goes through each.
pub const JOINERS: [fn(&[u8], &mut [u16]) -> Result<usize, Refusal>; 3] = [join, join_by_differences, join_by_weights];

/// Words 1 to 7 of the first block.
pub fn open(pile: &[u8], head: &mut [u16; 7]) -> Result<usize, Refusal> {
    calls::open(pile, head).result()
}

/// The pile salvaged where it stands, block and word of each word rebuilt into the front of `list`; how many they are.
pub fn salvage(pile: &mut [u8], list: &mut [u16]) -> Result<usize, Refusal> {
    calls::salvage(pile, list).result()
}

/// The sum of two blocks under this number and year into the front of `out`; how many blocks it is.
pub fn add(one: &[u8], two: &[u8], number: usize, year: usize, out: &mut [u8]) -> Result<usize, Refusal> {
    calls::add(one, two, number, year, out).result()
}

/// A key's ten words into `words`; how many they are.
pub fn pack(key: &[u8], words: &mut [u16; 10]) -> Result<usize, Refusal> {
    calls::pack(key, words).result()
}

/// The sixteen bytes of a key's words into the front of `out`; how many they are.
pub fn unpack(words: &[u16], out: &mut [u8]) -> Result<usize, Refusal> {
    calls::unpack(words, out).result()
}

/// One holder's card of a key into the front of `out`; the number of blocks. Of `d` the secret is not lent.
pub fn deal_key(d: &Deal, key: &[u8], holder: usize, out: &mut [u8]) -> Result<usize, Refusal> {
    calls::deal_key(d, key, holder, out).result()
}

/// The key of a pile into the front of `out`; the number of its bytes.
pub fn join_key(pile: &[u8], out: &mut [u8]) -> Result<usize, Refusal> {
    calls::join_key(pile, out).result()
}

/// A client opens with words 2, 4, 5, 6 and 24 of a deal's blocks; k.
pub fn desk_open(desk: &mut Desk, client: usize, words: [usize; 5]) -> Result<usize, Refusal> {
    calls::desk_open(desk, client, words).result()
}

/// A client hands in one block; its distinct pieces so far.
pub fn desk_hand_in(desk: &mut Desk, client: usize, block: &[u8]) -> Result<usize, Refusal> {
    calls::desk_hand_in(desk, client, block).result()
}

/// The secret of a client's pieces into the front of `out`; the number of its words. What became of the desk, which is lent to be read, is there to
/// be seen.
pub fn desk_ask(desk: &mut Desk, client: usize, out: &mut [u16]) -> Result<usize, Refusal> {
    calls::desk_ask(desk, client, out).result()
}

/// A client closes; k.
pub fn desk_close(desk: &mut Desk, client: usize) -> Result<usize, Refusal> {
    calls::desk_close(desk, client).result()
}
