//! The stored weights: all 2,485, held against binomials by the product formula, which is no rule that the unit or its proofs use. They are read twice,
//! in the table's own file and off the library, which gives a weight where every other value is 0.
use bench::reference::{block_words, bytes_of, Desk};
use bench::unit;
use std::path::Path;

const P: u128 = 32749;

/// The weight of piece j of k: k over j, in full, then mod p; for even j its negative.
fn weight(k: usize, j: usize) -> u16 {
    let ways = (0..j as u128).fold(1, |ways, i| ways * (k as u128 - i) / (i + 1));
    (if j % 2 == 1 { ways % P } else { (P - ways % P) % P }) as u16
}

/// The weights of k pieces.
fn row(k: usize) -> Vec<u16> {
    (1..=k).map(|j| weight(k, j)).collect()
}

#[test]
fn the_rule() {
    assert_eq!([weight(3, 1), weight(3, 2), weight(3, 3)], [3, 32746, 1]);
    // the weights of any k add up to 1: pieces that are all alike are pieces of that word
    for k in 1..=70 {
        let sum: u128 = (1..=k).map(|j| weight(k, j) as u128).sum();
        assert_eq!(sum % P, 1, "{k} pieces");
    }
    // 70 over 35, as tables have it
    assert_eq!(weight(70, 35) as u128, 112_186_277_816_662_845_432 % P);
}

/// Two rows to a line, and all 70 in 35 lines.
#[test]
fn the_table() {
    let file = Path::new(env!("CARGO_MANIFEST_DIR")).join("../crates/triangle/src/table.rt");
    let text = std::fs::read_to_string(&file).expect("the table");
    let lines: Vec<Vec<u16>> = text
        .split("const LINE_")
        .skip(1)
        .enumerate()
        .map(|(at, line)| {
            let (numbers, _) = line.strip_prefix(&format!("{}: [u16; 71] = [", at + 1)).expect("its name").split_once("];").expect("its end");
            numbers.split(',').map(str::trim).filter(|number| !number.is_empty()).map(|number| number.parse().expect("a number")).collect()
        })
        .collect();
    assert_eq!(lines.iter().map(Vec::len).sum::<usize>(), 2485);
    let expected: Vec<Vec<u16>> = (1..=35).map(|m| [row(m), row(71 - m)].concat()).collect();
    assert_eq!(lines, expected);
}

/// The values of piece j, one for each of the pieces asked for: 1 where it is this piece.
fn values(j: usize, asked: &[usize]) -> Vec<u16> {
    asked.iter().map(|other| (*other == j) as u16).collect()
}

/// Sixteen weights at a time, by either client.
#[test]
fn at_the_desk() {
    for client in [1, 2] {
        let mut count = 0;
        for k in 1..=70 {
            let mut given = Vec::new();
            let pieces: Vec<usize> = (1..=k).collect();
            for asked in pieces.chunks(16) {
                let mut desk = Desk::fresh();
                assert_eq!(unit::desk_open(&mut desk, client, [7, 8, k, asked.len(), 2026]), Ok(k));
                for j in 1..=k {
                    let head = [1987, 7, 1, 8, k as u16, asked.len() as u16, j as u16];
                    let block = bytes_of(&block_words(head, &values(j, asked), 2026));
                    assert_eq!(unit::desk_hand_in(&mut desk, client, &block), Ok(j));
                }
                let mut words = [65535; 17];
                assert_eq!(unit::desk_ask(&mut desk, client, &mut words), Ok(asked.len()));
                assert!(words[asked.len()..].iter().all(|word| *word == 65535), "past the secret");
                given.extend_from_slice(&words[..asked.len()]);
            }
            assert_eq!(given, row(k), "client {client}");
            count += given.len();
        }
        assert_eq!(count, 2485);
    }
}

/// The same weights, of piles of one block of each piece, by each joiner.
#[test]
fn of_piles() {
    for join in unit::JOINERS {
        for k in 1..=70 {
            let pieces: Vec<usize> = (1..=k).collect();
            let mut given = Vec::new();
            for asked in pieces.chunks(16) {
                let head = |j: usize| [1987, 7, 1, 8, k as u16, asked.len() as u16, j as u16];
                let pile: Vec<u8> = (1..=k).flat_map(|j| bytes_of(&block_words(head(j), &values(j, asked), 2026))).collect();
                let mut words = [65535; 17];
                assert_eq!(join(&pile, &mut words), Ok(asked.len()));
                assert!(words[asked.len()..].iter().all(|word| *word == 65535), "past the secret");
                given.extend_from_slice(&words[..asked.len()]);
            }
            assert_eq!(given, row(k));
        }
    }
}
