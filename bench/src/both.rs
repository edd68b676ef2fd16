//! The calls of an implementation as one value, so that a case is written once and run on both: on the independent implementation, and on the library.
use crate::reference::{self, Deal, Desk, Refusal, BLOCK};
use crate::unit;

pub type Said = Result<usize, Refusal>;

pub struct Calls {
    pub deal_by_sets: fn(&Deal, usize, &mut [u8]) -> Said,
    pub joiners: &'static [fn(&[u8], &mut [u16]) -> Said],
    pub open: fn(&[u8]) -> Result<[u16; 7], Refusal>,
    pub add: fn(&[u8], &[u8], usize, usize, &mut [u8]) -> Said,
    pub hand_in: fn(&mut Desk, &[u8]) -> Said,
    pub salvage: fn(&mut [u8], &mut [u16]) -> Said,
}

pub const INDEPENDENT: Calls = Calls {
    deal_by_sets: reference::deal_by_sets,
    joiners: &[reference::join, reference::join_by_differences],
    open: reference::open,
    add: reference::add,
    hand_in: |desk, block| desk.hand_in(2, block),
    salvage: reference::salvage,
};

pub const LIBRARY: Calls = Calls {
    deal_by_sets: unit::deal_by_sets,
    joiners: &unit::JOINERS,
    open: |pile| {
        let mut head = [0; 7];
        unit::open(pile, &mut head).map(|_| head)
    },
    add: unit::add,
    hand_in: |desk, block| unit::desk_hand_in(desk, 2, block),
    salvage: unit::salvage,
};

/// Functions over `Calls`, each made a test of either implementation.
#[macro_export]
macro_rules! on_both {
    ($($name:ident)*) => {
        mod independent { $(#[test] fn $name() { super::$name(&bench::both::INDEPENDENT) })* }
        mod library { $(#[test] fn $name() { super::$name(&bench::both::LIBRARY) })* }
    };
}

impl Calls {
    /// A holder's card by sets, of a deal that is accepted; behind it nothing is written.
    pub fn card(&self, d: &Deal, holder: usize) -> Vec<u8> {
        let mut out = vec![9; 36 * BLOCK];
        let blocks = (self.deal_by_sets)(d, holder, &mut out).expect("an accepted deal");
        assert!(out[blocks * BLOCK..].iter().all(|byte| *byte == 9));
        out.truncate(blocks * BLOCK);
        out
    }

    /// The cards of these people, one behind the other.
    pub fn cards(&self, d: &Deal, people: &[usize]) -> Vec<u8> {
        people.iter().flat_map(|person| self.card(d, *person)).collect()
    }

    /// All joiners say this of a pile, and write these words over the front of the lent ones.
    pub fn joins(&self, what: &str, pile: &[u8], room: usize, said: Said, words: &[u16]) {
        for join in self.joiners {
            let mut out = vec![9; room];
            assert_eq!(join(pile, &mut out), said, "{what}");
            assert_eq!((&out[..words.len()], &out[words.len()..]), (words, &vec![9; room - words.len()][..]), "{what}");
        }
    }
}
