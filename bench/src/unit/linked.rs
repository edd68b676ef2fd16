//! The calls, linked. Nothing checks these declarations against the library: they are the ones of include/titmeadow.h.
use super::Answer;
use crate::reference::{Deal, Desk, Holdings};

extern "C" {
    fn titmeadow_plan(
        people: usize,
        required: *const u16,
        required_count: usize,
        forbidden: *const u16,
        forbidden_count: usize,
        groups: *mut u16,
    ) -> Answer;
    fn titmeadow_judge(
        people: usize,
        required: *const u16,
        required_count: usize,
        forbidden: *const u16,
        forbidden_count: usize,
        list_people: usize,
        pieces: usize,
        needed: usize,
        marks: *const u8,
        marks_count: usize,
    ) -> Answer;
    fn titmeadow_deal(
        people: usize,
        required: *const u16,
        required_count: usize,
        forbidden: *const u16,
        forbidden_count: usize,
        deal: usize,
        year: usize,
        holder: usize,
        secret: *const u16,
        words: usize,
        random: *const u16,
        random_count: usize,
        card: *mut u8,
        room: usize,
    ) -> Answer;
    fn titmeadow_deal_by_sets(
        people: usize,
        required: *const u16,
        required_count: usize,
        forbidden: *const u16,
        forbidden_count: usize,
        deal: usize,
        year: usize,
        holder: usize,
        secret: *const u16,
        words: usize,
        random: *const u16,
        random_count: usize,
        card: *mut u8,
        room: usize,
    ) -> Answer;
    fn titmeadow_join(pile: *const u8, length: usize, secret: *mut u16, room: usize) -> Answer;
    fn titmeadow_join_by_differences(pile: *const u8, length: usize, secret: *mut u16, room: usize) -> Answer;
    fn titmeadow_join_by_weights(pile: *const u8, length: usize, secret: *mut u16, room: usize) -> Answer;
    fn titmeadow_open(pile: *const u8, length: usize, head: *mut u16) -> Answer;
    fn titmeadow_salvage(pile: *mut u8, length: usize, list: *mut u16, numbers: usize) -> Answer;
    fn titmeadow_add(
        one: *const u8,
        one_length: usize,
        two: *const u8,
        two_length: usize,
        deal: usize,
        year: usize,
        block: *mut u8,
        room: usize,
    ) -> Answer;
    fn titmeadow_pack(key: *const u8, length: usize, words: *mut u16) -> Answer;
    fn titmeadow_unpack(words: *const u16, count: usize, key: *mut u8, room: usize) -> Answer;
    fn titmeadow_deal_key(
        people: usize,
        required: *const u16,
        required_count: usize,
        forbidden: *const u16,
        forbidden_count: usize,
        deal: usize,
        year: usize,
        holder: usize,
        key: *const u8,
        length: usize,
        random: *const u16,
        random_count: usize,
        card: *mut u8,
        room: usize,
    ) -> Answer;
    fn titmeadow_join_key(pile: *const u8, length: usize, key: *mut u8, room: usize) -> Answer;
    fn titmeadow_desk_open(
        desk: *mut Desk,
        client: usize,
        deal: usize,
        people: usize,
        pieces: usize,
        words: usize,
        year: usize,
    ) -> Answer;
    fn titmeadow_desk_hand_in(desk: *mut Desk, client: usize, block: *const u8, length: usize) -> Answer;
    fn titmeadow_desk_ask(desk: *const Desk, client: usize, secret: *mut u16, room: usize) -> Answer;
    fn titmeadow_desk_close(desk: *mut Desk, client: usize) -> Answer;
}

pub fn plan(people: usize, required: &[u16], forbidden: &[u16], groups: &mut [u16; 70]) -> Answer {
    unsafe { titmeadow_plan(people, required.as_ptr(), required.len(), forbidden.as_ptr(), forbidden.len(), groups.as_mut_ptr()) }
}

pub fn judge(people: usize, required: &[u16], forbidden: &[u16], list: &Holdings) -> Answer {
    unsafe {
        titmeadow_judge(
            people,
            required.as_ptr(),
            required.len(),
            forbidden.as_ptr(),
            forbidden.len(),
            list.people,
            list.pieces,
            list.needed,
            list.marks.as_ptr(),
            list.marks.len(),
        )
    }
}

/// What both schemes are dealt by.
type Dealer = unsafe extern "C" fn(
    usize,
    *const u16,
    usize,
    *const u16,
    usize,
    usize,
    usize,
    usize,
    *const u16,
    usize,
    *const u16,
    usize,
    *mut u8,
    usize,
) -> Answer;

fn dealt(dealer: Dealer, d: &Deal, holder: usize, out: &mut [u8]) -> Answer {
    unsafe {
        dealer(
            d.people,
            d.required.as_ptr(),
            d.required.len(),
            d.forbidden.as_ptr(),
            d.forbidden.len(),
            d.number,
            d.year,
            holder,
            d.secret.as_ptr(),
            d.secret.len(),
            d.random.as_ptr(),
            d.random.len(),
            out.as_mut_ptr(),
            out.len(),
        )
    }
}

pub fn deal(d: &Deal, holder: usize, out: &mut [u8]) -> Answer {
    dealt(titmeadow_deal, d, holder, out)
}

pub fn deal_by_sets(d: &Deal, holder: usize, out: &mut [u8]) -> Answer {
    dealt(titmeadow_deal_by_sets, d, holder, out)
}

pub fn join(pile: &[u8], out: &mut [u16]) -> Answer {
    unsafe { titmeadow_join(pile.as_ptr(), pile.len(), out.as_mut_ptr(), out.len()) }
}

pub fn join_by_differences(pile: &[u8], out: &mut [u16]) -> Answer {
    unsafe { titmeadow_join_by_differences(pile.as_ptr(), pile.len(), out.as_mut_ptr(), out.len()) }
}

pub fn join_by_weights(pile: &[u8], out: &mut [u16]) -> Answer {
    unsafe { titmeadow_join_by_weights(pile.as_ptr(), pile.len(), out.as_mut_ptr(), out.len()) }
}

pub fn open(pile: &[u8], head: &mut [u16; 7]) -> Answer {
    unsafe { titmeadow_open(pile.as_ptr(), pile.len(), head.as_mut_ptr()) }
}

pub fn salvage(pile: &mut [u8], list: &mut [u16]) -> Answer {
    unsafe { titmeadow_salvage(pile.as_mut_ptr(), pile.len(), list.as_mut_ptr(), list.len()) }
}

pub fn add(one: &[u8], two: &[u8], number: usize, year: usize, out: &mut [u8]) -> Answer {
    unsafe { titmeadow_add(one.as_ptr(), one.len(), two.as_ptr(), two.len(), number, year, out.as_mut_ptr(), out.len()) }
}

pub fn pack(key: &[u8], words: &mut [u16; 10]) -> Answer {
    unsafe { titmeadow_pack(key.as_ptr(), key.len(), words.as_mut_ptr()) }
}

pub fn unpack(words: &[u16], out: &mut [u8]) -> Answer {
    unsafe { titmeadow_unpack(words.as_ptr(), words.len(), out.as_mut_ptr(), out.len()) }
}

pub fn deal_key(d: &Deal, key: &[u8], holder: usize, out: &mut [u8]) -> Answer {
    unsafe {
        titmeadow_deal_key(
            d.people,
            d.required.as_ptr(),
            d.required.len(),
            d.forbidden.as_ptr(),
            d.forbidden.len(),
            d.number,
            d.year,
            holder,
            key.as_ptr(),
            key.len(),
            d.random.as_ptr(),
            d.random.len(),
            out.as_mut_ptr(),
            out.len(),
        )
    }
}

pub fn join_key(pile: &[u8], out: &mut [u8]) -> Answer {
    unsafe { titmeadow_join_key(pile.as_ptr(), pile.len(), out.as_mut_ptr(), out.len()) }
}

pub fn desk_open(desk: &mut Desk, client: usize, [deal, people, pieces, words, year]: [usize; 5]) -> Answer {
    unsafe { titmeadow_desk_open(desk, client, deal, people, pieces, words, year) }
}

pub fn desk_hand_in(desk: &mut Desk, client: usize, block: &[u8]) -> Answer {
    unsafe { titmeadow_desk_hand_in(desk, client, block.as_ptr(), block.len()) }
}

pub fn desk_ask(desk: &mut Desk, client: usize, out: &mut [u16]) -> Answer {
    unsafe { titmeadow_desk_ask(desk, client, out.as_mut_ptr(), out.len()) }
}

pub fn desk_close(desk: &mut Desk, client: usize) -> Answer {
    unsafe { titmeadow_desk_close(desk, client) }
}
