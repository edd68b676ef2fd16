//! The calls, asked through a pipe: bench/served.c says how. build.rs compiles it; each thread has a process of its own.
use super::Answer;
use crate::reference::{Deal, Desk, Holdings};
use std::cell::RefCell;
use std::io::{BufWriter, Read, Write};
use std::process::{Child, ChildStdin, ChildStdout, Command, Stdio};

/// How many numbers a question has.
const NUMBERS: usize = 6;

struct Served {
    child: Child,
    asks: Option<BufWriter<ChildStdin>>,
    says: ChildStdout,
}

impl Served {
    fn start() -> Served {
        let mut child = Command::new(concat!(env!("CARGO_MANIFEST_DIR"), "/../tools/x86-64"))
            .args(["run", env!("SERVED")])
            .stdin(Stdio::piped())
            .stdout(Stdio::piped())
            .spawn()
            .expect("the library behind a pipe");
        let asks = Some(BufWriter::new(child.stdin.take().unwrap()));
        let says = child.stdout.take().unwrap();
        Served { child, asks, says }
    }

    fn ask(&mut self, call: u64, numbers: &[usize], lists: [&[u8]; 4], out: &mut [u8]) -> Answer {
        let asks = self.asks.as_mut().unwrap();
        let mut number = |n: u64| asks.write_all(&n.to_le_bytes()).unwrap();
        number(call);
        (0..NUMBERS).for_each(|i| number(numbers.get(i).map_or(0, |n| *n as u64)));
        for list in lists.into_iter().chain([&out[..]]) {
            asks.write_all(&(list.len() as u64).to_le_bytes()).unwrap();
            asks.write_all(list).unwrap();
        }
        asks.flush().unwrap();
        let mut said = [0; 24];
        self.says.read_exact(&mut said).expect("an answer of the library");
        self.says.read_exact(out).expect("what was lent to the library");
        let number = |i: usize| u64::from_le_bytes(said[8 * i..8 * i + 8].try_into().unwrap()) as usize;
        Answer { number: number(0), a: number(1), b: number(2) }
    }
}

impl Drop for Served {
    fn drop(&mut self) {
        self.asks = None;
        self.child.wait().ok();
    }
}

thread_local! {
    static SERVED: RefCell<Served> = RefCell::new(Served::start());
}

fn ask<const N: usize>(call: u64, numbers: [usize; N], lists: [&[u8]; 4], out: &mut [u8]) -> Answer {
    SERVED.with(|served| served.borrow_mut().ask(call, &numbers, lists, out))
}

fn bytes(words: &[u16]) -> Vec<u8> {
    words.iter().flat_map(|word| word.to_le_bytes()).collect()
}

fn ask_words(call: u64, numbers: [usize; 4], lists: [&[u8]; 4], out: &mut [u16]) -> Answer {
    let mut lent = bytes(out);
    let said = ask(call, numbers, lists, &mut lent);
    for (word, pair) in out.iter_mut().zip(lent.chunks_exact(2)) {
        *word = u16::from_le_bytes([pair[0], pair[1]]);
    }
    said
}

pub fn plan(people: usize, required: &[u16], forbidden: &[u16], groups: &mut [u16; 70]) -> Answer {
    ask_words(1, [people, 0, 0, 0], [&bytes(required), &bytes(forbidden), &[], &[]], groups)
}

pub fn judge(people: usize, required: &[u16], forbidden: &[u16], list: &Holdings) -> Answer {
    ask(20, [people, list.people, list.pieces, list.needed], [&bytes(required), &bytes(forbidden), &list.marks, &[]], &mut [])
}

fn ask_deal(call: u64, d: &Deal, holder: usize, out: &mut [u8]) -> Answer {
    let lists = [&d.required, &d.forbidden, &d.secret, &d.random].map(|words| bytes(words));
    ask(call, [d.people, d.number, d.year, holder], [&lists[0], &lists[1], &lists[2], &lists[3]], out)
}

pub fn deal(d: &Deal, holder: usize, out: &mut [u8]) -> Answer {
    ask_deal(2, d, holder, out)
}

pub fn deal_by_sets(d: &Deal, holder: usize, out: &mut [u8]) -> Answer {
    ask_deal(16, d, holder, out)
}

pub fn join(pile: &[u8], out: &mut [u16]) -> Answer {
    ask_words(3, [0; 4], [pile, &[], &[], &[]], out)
}

pub fn join_by_differences(pile: &[u8], out: &mut [u16]) -> Answer {
    ask_words(5, [0; 4], [pile, &[], &[], &[]], out)
}

pub fn join_by_weights(pile: &[u8], out: &mut [u16]) -> Answer {
    ask_words(21, [0; 4], [pile, &[], &[], &[]], out)
}

pub fn open(pile: &[u8], head: &mut [u16; 7]) -> Answer {
    ask_words(4, [0; 4], [pile, &[], &[], &[]], head)
}

/// Both are lent to be written, so they go as one, the list in front, where its numbers lie even.
pub fn salvage(pile: &mut [u8], list: &mut [u16]) -> Answer {
    let mut lent = bytes(list);
    lent.extend_from_slice(pile);
    let said = ask(10, [list.len(), 0, 0, 0], [&[], &[], &[], &[]], &mut lent);
    for (number, pair) in list.iter_mut().zip(lent.chunks_exact(2)) {
        *number = u16::from_le_bytes([pair[0], pair[1]]);
    }
    pile.copy_from_slice(&lent[2 * list.len()..]);
    said
}

pub fn add(one: &[u8], two: &[u8], number: usize, year: usize, out: &mut [u8]) -> Answer {
    ask(11, [number, year, 0, 0], [one, two, &[], &[]], out)
}

pub fn pack(key: &[u8], words: &mut [u16; 10]) -> Answer {
    ask_words(6, [0; 4], [key, &[], &[], &[]], words)
}

pub fn unpack(words: &[u16], out: &mut [u8]) -> Answer {
    ask(7, [0; 4], [&bytes(words), &[], &[], &[]], out)
}

pub fn deal_key(d: &Deal, key: &[u8], holder: usize, out: &mut [u8]) -> Answer {
    let lists = [&d.required, &d.forbidden, &d.random].map(|words| bytes(words));
    ask(8, [d.people, d.number, d.year, holder], [&lists[0], &lists[1], key, &lists[2]], out)
}

pub fn join_key(pile: &[u8], out: &mut [u8]) -> Answer {
    ask(9, [0; 4], [pile, &[], &[], &[]], out)
}

/// The bytes of a desk in C, little-endian: the slots, four bytes that nothing has, the words.
const DESK: usize = 2464;

/// The desk goes as it is lent, with other words that are lent behind it.
fn ask_desk<const N: usize>(call: u64, numbers: [usize; N], block: &[u8], desk: &mut Desk, out: &mut [u16]) -> Answer {
    let mut lent = bytes(desk.slots.as_flattened());
    lent.extend_from_slice(&[0; 4]);
    lent.extend(desk.words.as_flattened().iter().flat_map(|word| (*word as u64).to_le_bytes()));
    assert_eq!(lent.len(), DESK);
    lent.extend(bytes(out));
    let said = ask(call, numbers, [block, &[], &[], &[]], &mut lent);
    let (state, words) = lent.split_at(DESK);
    let numbers = desk.slots.as_flattened_mut().iter_mut().zip(state.chunks_exact(2));
    for (number, pair) in numbers.chain(out.iter_mut().zip(words.chunks_exact(2))) {
        *number = u16::from_le_bytes([pair[0], pair[1]]);
    }
    for (word, eight) in desk.words.as_flattened_mut().iter_mut().zip(state[DESK - 80..].chunks_exact(8)) {
        *word = u64::from_le_bytes(eight.try_into().unwrap()) as usize;
    }
    said
}

pub fn desk_open(desk: &mut Desk, client: usize, [deal, people, pieces, words, year]: [usize; 5]) -> Answer {
    ask_desk(12, [client, deal, people, pieces, words, year], &[], desk, &mut [])
}

pub fn desk_hand_in(desk: &mut Desk, client: usize, block: &[u8]) -> Answer {
    ask_desk(13, [client], block, desk, &mut [])
}

pub fn desk_ask(desk: &mut Desk, client: usize, out: &mut [u16]) -> Answer {
    ask_desk(14, [client], &[], desk, out)
}

pub fn desk_close(desk: &mut Desk, client: usize) -> Answer {
    ask_desk(15, [client], &[], desk, &mut [])
}
