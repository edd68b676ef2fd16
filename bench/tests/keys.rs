//! Keys: packing, unpacking, dealing a key and joining to one, the library against the independent implementation: the same answers, and the
//! same content of every lent buffer.
use bench::cards::{deal_of, example_1};
use bench::inputs;
use bench::met::Met;
use bench::numbers::Numbers;
use bench::reference::{self, plan, Deal, Refusal, BLOCK};
use bench::unit;
use std::collections::BTreeSet;

/// A key; one in four is not of 16 bytes. Runs of bits that are all 0 or all 1 come often.
fn key(n: &mut Numbers) -> Vec<u8> {
    let length = match n.below(8) {
        0 => n.below(41),
        1 => 15 + n.below(3),
        _ => 16,
    };
    let mut key: Vec<u8> = (0..length).map(|_| n.next() as u8).collect();
    if n.once_in(4) && length > 0 {
        let (byte, from) = ([0, 1, 128, 255][n.below(4)], n.below(length));
        key[from..].fill(byte);
    }
    key
}

/// Words; one list in four has not ten of them. Both sides of the two limits come often.
fn words(n: &mut Numbers) -> Vec<u16> {
    let count = match n.below(8) {
        0 => n.below(17),
        1 => 9 + n.below(3),
        _ => 10,
    };
    let mut words: Vec<u16> = (0..count).map(|i| n.below(if i == 0 { 2048 } else { 8192 }) as u16).collect();
    for _ in 0..n.below(4) {
        if count > 0 {
            let at = n.below(count);
            words[at] = [2047, 2048, 8191, 8192, 0, 32748, u16::MAX, n.next() as u16][n.below(8)];
        }
    }
    words
}

/// An output for a key, of 15, 16 or 17 bytes or of another size.
fn lent(n: &mut Numbers) -> Vec<u8> {
    let room = if n.once_in(4) { n.below(41) } else { [15, 16, 16, 17][n.below(4)] };
    (0..room).map(|_| n.next() as u8).collect()
}

#[test]
fn keys_and_words() {
    let mut n = Numbers::new(31);
    let (mut packs, mut unpacks, mut places) = (Met::default(), Met::default(), BTreeSet::new());
    for _ in 0..100_000 {
        let key = key(&mut n);
        let before: [u16; 10] = std::array::from_fn(|_| n.next() as u16);
        let mut packed = before;
        let expected = reference::pack(&key);
        packs.note(&expected);
        assert_eq!(unit::pack(&key, &mut packed), expected.map(|_| 10), "{key:?}");
        assert_eq!(packed, expected.unwrap_or(before), "{key:?}");
        if expected.is_ok() {
            let mut back = [0; 16];
            assert_eq!(unit::unpack(&packed, &mut back), Ok(16), "{key:?}");
            assert_eq!(back[..], key, "the key is not what its words unpack to");
        }

        let (words, before) = (words(&mut n), lent(&mut n));
        let (mut ours, mut theirs) = (before.clone(), before);
        let expected = reference::unpack(&words, &mut theirs);
        unpacks.note(&expected);
        if let Err(Refusal { number: 23, a, .. }) = expected {
            places.insert(a);
        }
        assert_eq!(unit::unpack(&words, &mut ours), expected, "{words:?}");
        assert_eq!(ours, theirs, "{words:?}");
        if expected.is_ok() {
            let mut back = [0; 10];
            assert_eq!(unit::pack(&ours[..16], &mut back), Ok(10), "{words:?}");
            assert_eq!(back[..], words, "the words are not what their key packs to");
        }
    }
    packs.shows(&[0, 10]);
    unpacks.shows(&[0, 12, 23]);
    assert_eq!(places, (0..=10).collect(), "NOTKEY has named other words");
}

/// A deal that is accepted, of a secret of so many words.
fn deal_for(n: &mut Numbers, secret: Vec<u16>) -> Deal {
    let mut d = inputs::good_deal(n);
    let k = plan(d.people, &d.required, &d.forbidden).unwrap().len();
    d.random = (0..secret.len() * (k - 1)).map(|_| n.word()).collect();
    d.secret = secret;
    d
}

/// One argument made bad, but for policy and key.
fn spoil(n: &mut Numbers, d: &mut Deal, holder: &mut usize) {
    match n.below(6) {
        0 => d.number = [0, 32749, 65536, usize::MAX][n.below(4)],
        5 => d.year = inputs::bad_year(n),
        1 => *holder = [0, d.people.wrapping_add(1), usize::MAX][n.below(3)],
        2 => d.random.push(1),
        3 => d.random.truncate(d.random.len() - 1),
        _ => {
            let at = n.below(d.random.len());
            d.random[at] = 32749 + n.below(32787) as u16;
        }
    }
}

#[test]
fn deals_of_keys() {
    let mut n = Numbers::new(32);
    let mut met = Met::default();
    for _ in 0..20_000 {
        let mut d = deal_for(&mut n, vec![0; 10]);
        let mut holder = 1 + n.below(d.people);
        let key = key(&mut n);
        if n.once_in(10) {
            (d.people, d.required, d.forbidden) = inputs::policy(&mut n);
        }
        for _ in 0..[0, 0, 0, 1, 1, 2][n.below(6)] {
            spoil(&mut n, &mut d, &mut holder);
        }
        let room = if n.once_in(4) { n.below(36 * BLOCK) } else { 36 * BLOCK };
        let before: Vec<u8> = (0..room).map(|_| n.next() as u8).collect();
        let (mut ours, mut theirs) = (before.clone(), before);
        let said = unit::deal_key(&d, &key, holder, &mut ours);
        let expected = reference::deal_key(&d, &key, holder, &mut theirs);
        met.note(&expected);
        assert_eq!(said, expected, "{d:?} {key:?} {holder} {room}");
        assert!(ours == theirs, "the lent card differs: {d:?} {key:?} {holder} {room}");
    }
    met.shows(&[0, 1, 2, 3, 4, 5, 6, 8, 9, 10, 11, 12, 22, 25]);
}

/// The secret of a deal whose piles are joined to a key: a key's words; ten that may be none's; or a code of any length.
fn secret(n: &mut Numbers) -> Vec<u16> {
    match n.below(8) {
        0 => (0..1 + n.below(16)).map(|_| n.word()).collect(),
        1 => (0..10).map(|_| n.below(9000) as u16).collect(),
        2 | 3 => {
            let mut words: Vec<u16> = (0..10).map(|i| n.below(if i == 0 { 2048 } else { 8192 }) as u16).collect();
            let at = n.below(10);
            words[at] = [2047, 2048, 8191, 8192, 32748][n.below(5)];
            words
        }
        _ => {
            let key: [u8; 16] = std::array::from_fn(|_| n.next() as u8);
            reference::pack(&key).unwrap().to_vec()
        }
    }
}

#[test]
fn piles_to_keys() {
    let mut n = Numbers::new(33);
    let (mut met, mut places) = (Met::default(), BTreeSet::new());
    for round in 0..10_000 {
        let secret = secret(&mut n);
        let d = deal_for(&mut n, secret);
        for _ in 0..if round % 100 == 0 { 1 } else { 4 } {
            let (pile, before) = (inputs::pile(&mut n, &d), lent(&mut n));
            let (mut ours, mut theirs) = (before.clone(), before);
            let expected = reference::join_key(&pile, &mut theirs);
            met.note(&expected);
            if let Err(Refusal { number: 23, a, .. }) = expected {
                places.insert(a);
            }
            assert_eq!(unit::join_key(&pile, &mut ours), expected, "{d:?}");
            assert_eq!(ours, theirs, "{d:?}");
        }
    }
    met.shows(&[0, 12, 13, 14, 15, 16, 17, 18, 19, 20, 23]);
    assert_eq!(places, (0..=10).collect(), "NOTKEY has named other words");
}

/// Every group of six custodians with the cards of one key: those around a required set get it back, byte for byte, and all others SHORT.
#[test]
fn every_group_of_six() {
    let key: [u8; 16] = std::array::from_fn(|i| (i * 37 + 200) as u8);
    let d = deal_of(6, example_1(), (1987, 2026), &reference::pack(&key).unwrap(), 34);
    let k = plan(6, &d.required, &[]).unwrap().len();
    let cards: Vec<Vec<u8>> = (1..=6)
        .map(|holder| {
            let mut out = vec![0; 70 * BLOCK];
            let blocks = unit::deal_key(&d, &key, holder, &mut out).expect("an accepted deal");
            out.truncate(blocks * BLOCK);
            assert!(out == inputs::card(&d, holder), "a key's card is that of its words");
            out
        })
        .collect();
    let mut open = 0;
    for group in 0..64u16 {
        let pile: Vec<u8> = (0..6).filter(|i| group >> i & 1 == 1).flat_map(|i| cards[i].clone()).collect();
        let pieces: BTreeSet<u8> = pile.chunks(BLOCK).map(|block| block[13]).collect();
        let mut out = [9; 17];
        let said = unit::join_key(&pile, &mut out);
        if d.required.iter().any(|set| set & !group == 0) {
            open += 1;
            assert_eq!(said, Ok(16));
            assert_eq!((&out[..16], out[16]), (&key[..], 9));
        } else {
            let b = if pieces.is_empty() { 0 } else { k };
            assert_eq!(said, Err(Refusal { number: 20, a: pieces.len(), b }));
            assert_eq!(out, [9; 17]);
        }
    }
    assert_eq!(open, 11);
}
