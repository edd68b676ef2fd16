//! Keys worked out by hand, and the edges of their ranges, on the library and on the independent implementation. What is expected is written
//! here, from SCOPE.
use bench::reference::{self, Deal, Refusal, BLOCK};
use bench::unit;

fn refused(number: usize, a: usize) -> Result<usize, Refusal> {
    Err(Refusal { number, a, b: 0 })
}

/// Keys and their words, by hand: no bits, all of them, the highest and the lowest, the lowest bit of each byte, bytes 0 to 15 counted up.
fn by_hand() -> Vec<([u8; 16], [u16; 10])> {
    let mut ends = [0; 16];
    (ends[0], ends[15]) = (128, 1);
    vec![
        ([0; 16], [0; 10]),
        ([255; 16], [2047, 8191, 8191, 8191, 8191, 8191, 8191, 8191, 8191, 8191]),
        (ends, [1024, 0, 0, 0, 0, 0, 0, 0, 0, 1]),
        ([1; 16], [8, 257, 32, 1028, 128, 4112, 514, 64, 2056, 257]),
        (std::array::from_fn(|i| i as u8), [0, 258, 96, 4116, 771, 4224, 4628, 707, 104, 3599]),
    ]
}

#[test]
fn keys_by_hand() {
    for (key, words) in by_hand() {
        assert_eq!(reference::pack(&key), Ok(words));
        let mut out = [9; 17];
        assert_eq!(reference::unpack(&words, &mut out), Ok(16));
        assert_eq!((&out[..16], out[16]), (&key[..], 9));
        let mut lent = [9; 10];
        assert_eq!(unit::pack(&key, &mut lent), Ok(10));
        assert_eq!(lent, words);
        let mut out = [9; 17];
        assert_eq!(unit::unpack(&words, &mut out), Ok(16));
        assert_eq!((&out[..16], out[16]), (&key[..], 9));
    }
}

/// Both sides of each limit, written from SCOPE: 2047 and 2048 in word 1, 8191 and 8192 in each, nine and eleven words, 15 and 16 bytes.
#[test]
fn edges() {
    for unpack in [reference::unpack, unit::unpack] {
        let said = |words: &[u16], room: usize| {
            let mut out = vec![9; room];
            let said = unpack(words, &mut out);
            assert!(said.is_ok() || out.iter().all(|byte| *byte == 9));
            said
        };
        let with = |i: usize, word: u16| {
            let mut words = [5; 10];
            words[i - 1] = word;
            words
        };
        assert_eq!(said(&with(1, 2047), 16), Ok(16));
        assert_eq!(said(&with(1, 2048), 16), refused(23, 1));
        for i in 2..=10 {
            assert_eq!(said(&with(i, 8191), 16), Ok(16));
            assert_eq!(said(&with(i, 8192), 16), refused(23, i));
            assert_eq!(said(&with(i, u16::MAX), 0), refused(23, i));
        }
        assert_eq!(said(&[0, 0, 8192, 0, 0, 0, 0, 0, 0, 8192], 15), refused(23, 3));
        for count in (0..10).chain(11..=16) {
            assert_eq!(said(&vec![0; count], 16), refused(23, 0));
            assert_eq!(said(&vec![8192; count], 15), refused(23, 0));
        }
        assert_eq!(said(&[0; 10], 15), refused(12, 16));
        assert_eq!(said(&[0; 10], 0), refused(12, 16));
    }
    for length in (0..=40).filter(|length| *length != 16) {
        let mut lent = [9; 10];
        assert_eq!(reference::pack(&vec![0; length]).map(|_| 10), refused(10, 0));
        assert_eq!(unit::pack(&vec![0; length], &mut lent), refused(10, 0));
        assert_eq!(lent, [9; 10]);
    }
}

/// A key that is not of 16 bytes beside each other fault: 10 with a = 0 behind 1 to 9, 22 and 25, and before 11 and 12.
#[test]
fn a_bad_key_in_its_place() {
    let good = Deal { people: 4, required: vec![3, 6, 12], forbidden: vec![9], number: 7, year: 0, secret: vec![], random: vec![5; 20] };
    let with = |change: fn(&mut Deal)| {
        let mut d = good.clone();
        change(&mut d);
        d
    };
    let before: [(Deal, usize, Refusal); 14] = [
        (with(|d| d.people = 0), 2, Refusal { number: 1, a: 0, b: 0 }),
        (with(|d| d.forbidden = vec![9; 257]), 2, Refusal { number: 2, a: 2, b: 0 }),
        (with(|d| d.required.push(16)), 2, Refusal { number: 3, a: 1, b: 4 }),
        (with(|d| d.required.clear()), 2, Refusal { number: 4, a: 0, b: 0 }),
        (with(|d| d.required.push(0)), 2, Refusal { number: 5, a: 4, b: 0 }),
        (with(|d| d.required.push(4)), 2, Refusal { number: 22, a: 4, b: 0 }),
        (with(|d| d.forbidden.push(7)), 2, Refusal { number: 6, a: 1, b: 2 }),
        (with(|d| d.number = 0), 2, Refusal { number: 8, a: 0, b: 0 }),
        (with(|d| d.number = 32749), 2, Refusal { number: 8, a: 0, b: 0 }),
        (with(|d| (d.number, d.year) = (0, 32749)), 2, Refusal { number: 8, a: 0, b: 0 }),
        (with(|d| d.year = 32749), 2, Refusal { number: 25, a: 0, b: 0 }),
        (with(|d| d.year = 1 << 40), 5, Refusal { number: 25, a: 0, b: 0 }),
        (good.clone(), 0, Refusal { number: 9, a: 0, b: 0 }),
        (good.clone(), 5, Refusal { number: 9, a: 0, b: 0 }),
    ];
    let behind = [with(|d| d.random.push(5)), with(|d| d.random.clear()), with(|d| d.random[19] = 32749)];
    for deal_key in [reference::deal_key, unit::deal_key] {
        for length in [0, 1, 15, 17, 32, 40] {
            let key = vec![7; length];
            for room in [0, 2 * BLOCK - 1, 2 * BLOCK] {
                let said = |d: &Deal, holder: usize| {
                    let mut out = vec![9; room];
                    let said = deal_key(d, &key, holder, &mut out);
                    assert!(out.iter().all(|byte| *byte == 9));
                    said
                };
                for (d, holder, refusal) in &before {
                    assert_eq!(said(d, *holder), Err(*refusal), "{length} bytes, {d:?}");
                }
                assert_eq!(said(&good, 2), refused(10, 0), "{length} bytes");
                for d in &behind {
                    assert_eq!(said(d, 2), refused(10, 0), "{length} bytes, {d:?}");
                }
            }
        }
        let said = |d: &Deal, room: usize| deal_key(d, &[7; 16], 2, &mut vec![9; room]);
        assert_eq!(said(&good, 2 * BLOCK), Ok(2));
        assert_eq!(said(&good, 2 * BLOCK - 1), refused(12, 2));
        assert_eq!(said(&behind[0], 0), refused(11, 0));
        assert_eq!(said(&behind[2], 0), refused(11, 20));
    }
}
