//! Cards of the proved dealer, for the samples and for the custodians' trial of every group.
use crate::inputs::{card, with_word};
use crate::numbers::Numbers;
use crate::reference::{plan, Deal, Refusal, BLOCK};
use crate::{sets, unit};

/// A set of persons, numbered from 1.
pub fn set(persons: &[usize]) -> u16 {
    persons.iter().map(|person| 1 << (person - 1)).sum()
}

/// Source 003's Example 1: six custodians.
pub fn example_1() -> Vec<u16> {
    [&[1, 2, 5, 6][..], &[2, 3, 5, 6], &[2, 4, 5, 6], &[3, 4, 5, 6], &[1, 2, 3, 4, 5], &[1, 2, 3, 4, 6]].map(set).to_vec()
}

/// A deal among so many people, of this number and year, with randomness from the seed.
pub fn deal_of(people: usize, required: Vec<u16>, (number, year): (usize, usize), secret: &[u16], seed: u64) -> Deal {
    let k = plan(people, &required, &[]).expect("an accepted policy").len();
    let mut n = Numbers::new(seed);
    let random = (0..secret.len() * (k - 1)).map(|_| n.word()).collect();
    Deal { people, required, forbidden: Vec::new(), number, year, secret: secret.to_vec(), random }
}

/// The same by sets.
pub fn sets_deal_of(people: usize, required: Vec<u16>, (number, year): (usize, usize), secret: &[u16], seed: u64) -> Deal {
    sets::by_sets(&mut Numbers::new(seed), &deal_of(people, required, (number, year), secret, seed))
}

/// What the library writes of a card; the independent implementation must write the same bytes.
fn same(d: &Deal, holder: usize, dealer: fn(&Deal, usize, &mut [u8]) -> Result<usize, Refusal>, theirs: Vec<u8>) -> Vec<u8> {
    let mut out = vec![0; 36 * BLOCK];
    let blocks = dealer(d, holder, &mut out).expect("an accepted deal");
    out.truncate(blocks * BLOCK);
    assert!(out == theirs, "the proved dealer and the independent one differ: holder {holder} of {d:?}");
    out
}

/// A holder's card as the proved library deals it.
pub fn dealt(d: &Deal, holder: usize) -> Vec<u8> {
    same(d, holder, unit::deal, card(d, holder))
}

/// The same by sets.
pub fn dealt_by_sets(d: &Deal, holder: usize) -> Vec<u8> {
    same(d, holder, unit::deal_by_sets, sets::card(d, holder))
}

/// The policy of P1, the number and the word of P11, and coefficients: two are for the first scheme, and three by sets.
fn p1(random: &[u16]) -> Deal {
    Deal { people: 4, required: vec![3, 6, 12], forbidden: vec![9], number: 7, year: 0, secret: vec![1234], random: random.to_vec() }
}

/// The deal of the sample cards, by Example 1, in a year.
fn sampled(year: usize) -> Deal {
    deal_of(6, example_1(), (1987, year), &[1234, 0, 32748, 5678], 7)
}

/// The holders whose cards of the former layout are kept in samples/.
pub const EARLIER: [usize; 4] = [1, 2, 5, 6];

/// The files of samples/ that are dealt: the six cards of a deal of 2026, a pile of four of them with one dirty slot, one in which the second
/// of the four is of year 0 and alike in all else, and holder 2's card of an earlier deal by the same policy; the four cards by sets of P1's
/// policy, and a pile of three of them under P11's card, which is of the first scheme and alike in number, year, people and words.
pub fn samples() -> Vec<(String, Vec<u8>)> {
    let d = sampled(2026);
    let mut files: Vec<_> = (1..=6).map(|holder| (format!("card{holder}"), dealt(&d, holder))).collect();
    let mut pile = [1, 2, 5, 6].map(|holder| dealt(&d, holder)).concat();
    with_word(&mut pile[4 * BLOCK..5 * BLOCK], 9, 32767, false);
    files.push(("dirty".to_string(), pile));
    let years = [(1, 2026), (2, 0), (5, 2026), (6, 2026)].map(|(holder, year)| dealt(&sampled(year), holder));
    files.push(("two_years".to_string(), years.concat()));
    let earlier = deal_of(6, example_1(), (1986, 0), &[4321, 0, 1, 8765], 8);
    files.push(("old2".to_string(), dealt(&earlier, 2)));
    let by_sets = p1(&[5, 7, 9]);
    files.extend((1..=4).map(|holder| (format!("sets{holder}"), dealt_by_sets(&by_sets, holder))));
    let under: Vec<u8> = (1..=3).flat_map(|holder| dealt_by_sets(&by_sets, holder)).collect();
    files.push(("two_schemes".to_string(), [dealt(&p1(&[5, 7]), 4), under].concat()));
    files
}

/// The cards of the former layout, which were written when blocks had no year and are kept as they were: what the dealer writes in their
/// place today, under year 0.
pub fn earlier() -> Vec<(String, Vec<u8>)> {
    EARLIER.map(|holder| (format!("earlier{holder}"), dealt(&sampled(0), holder))).to_vec()
}
