//! The edges of adding, on the library and on the independent implementation: each length, each of words 3 to 7, each number and year, the
//! room, and the order of the refusals. What is expected is written here, from SCOPE.
use bench::inputs::with_word;
use bench::reference::{self, block_words, bytes_of, words_of, Refusal, BLOCK};
use bench::unit;

/// The block of holder 4 of P11's deal, and its fellow of deal 8: secret 0, coefficients 32748 and 1, which come to 0 at 1.
fn fellows() -> (Vec<u8>, Vec<u8>) {
    fellows_in(0, 0)
}

/// The same two in these years.
fn fellows_in(one: u16, two: u16) -> (Vec<u8>, Vec<u8>) {
    let block = |deal: u16, value: u16, year: u16| bytes_of(&block_words([1987, deal, 4, 4, 3, 1, 1], &[value], year)).to_vec();
    (block(7, 1246, one), block(8, 0, two))
}

fn refused(number: usize, a: usize, b: usize) -> Result<usize, Refusal> {
    Err(Refusal { number, a, b })
}

/// Both answer this, under year 0, and a refusal leaves the output; the output that a result leaves.
fn said(one: &[u8], two: &[u8], number: usize, room: usize, want: Result<usize, Refusal>) -> Vec<u8> {
    said_in(one, two, (number, 0), room, want)
}

/// The same in a year.
fn said_in(one: &[u8], two: &[u8], (number, year): (usize, usize), room: usize, want: Result<usize, Refusal>) -> Vec<u8> {
    let outs = [unit::add, reference::add].map(|add| {
        let mut out = vec![9; room];
        assert_eq!(add(one, two, number, year, &mut out), want, "{number} {year} {room}");
        assert!(want.is_ok() || out.iter().all(|byte| *byte == 9), "a refusal wrote");
        out
    });
    assert!(outs[0] == outs[1]);
    outs[0].clone()
}

#[test]
fn the_worked_case() {
    let (one, two) = fellows();
    for (x, y) in [(&one, &two), (&two, &one)] {
        let out = said(x, y, 9, BLOCK + 3, Ok(1));
        let mut want = [0; 256];
        want[..8].copy_from_slice(&[1987, 9, 4, 4, 3, 1, 1, 1246]);
        want[255] = 12029;
        assert_eq!((words_of(&out), &out[BLOCK..]), (want, &[9, 9, 9][..]));
    }
}

#[test]
fn lengths() {
    let (one, two) = fellows();
    for length in [0, 1, 256, 510, 511, 513, 1024, 1536] {
        let cut = |block: &[u8]| block.iter().cycle().take(length).copied().collect::<Vec<u8>>();
        let mut dirty = one.clone();
        with_word(&mut dirty, 8, 32767, false);
        for (number, room) in [(9, BLOCK), (0, BLOCK), (9, 0)] {
            said(&cut(&one), &two, number, room, refused(13, 0, 0));
            said(&one, &cut(&two), number, room, refused(13, 0, 0));
            said(&cut(&one), &cut(&two), number, room, refused(13, 0, 0));
            // block one is looked at to its end before block two
            said(&dirty, &cut(&two), number, room, refused(15, 1, 8));
            said(&cut(&one), &dirty, number, room, refused(13, 0, 0));
        }
    }
}

#[test]
fn each_word_of_each_block() {
    let (one, two) = fellows();
    for i in 1..=256 {
        let changed = |block: &[u8], value: u16| {
            let mut block = block.to_vec();
            with_word(&mut block, i, value, false);
            block
        };
        for slot in [32749, 32767, 32768, 65535] {
            said(&changed(&one, slot), &two, 9, BLOCK, refused(15, 1, i));
            said(&one, &changed(&two, slot), 9, BLOCK, refused(15, 2, i));
            said(&changed(&one, slot), &changed(&two, slot), 9, BLOCK, refused(15, 1, i));
        }
        said(&changed(&one, 32748), &two, 9, BLOCK, refused(16, 1, 0));
        said(&one, &changed(&two, 32748), 0, 0, refused(16, 2, 0));
    }
    // words that the layout has not, under a right check: mark, number, .., a word behind the value, those beside the year, the last before the check
    let heads = [(1, 1988), (2, 0), (3, 0), (3, 9), (4, 0), (4, 3), (4, 9), (5, 0), (5, 71), (6, 0), (6, 17), (7, 0), (7, 4)];
    for (i, value) in heads.into_iter().chain([(9, 1), (23, 2026), (25, 2026), (255, 1)]) {
        let wrong = |block: &[u8]| {
            let mut block = block.to_vec();
            with_word(&mut block, i, value, true);
            block
        };
        // word 3 of 9 exceeds 8; word 4 of 3 is below holder 4
        said(&wrong(&one), &two, 9, BLOCK, refused(17, 1, i));
        said(&one, &wrong(&two), 9, BLOCK, refused(17, 2, i));
        said(&wrong(&one), &wrong(&two), 0, 0, refused(17, 1, i));
    }
}

#[test]
fn unlike_in_each_word() {
    let head = [1987, 7, 2, 4, 3, 2, 2];
    let block = |head: [u16; 7]| bytes_of(&block_words(head, &[5; 16][..head[5] as usize], 0)).to_vec();
    let one = block(head);
    let others: [(usize, &[u16]); 5] = [(3, &[1, 3, 4]), (4, &[2, 3, 5, 8]), (5, &[2, 4, 70]), (6, &[1, 3, 16]), (7, &[1, 3])];
    for (i, values) in others {
        for value in values {
            let mut other = head;
            other[i - 1] = *value;
            // unlike in a later word as well
            let mut more = other;
            more[6] = 1;
            let numbers = [9, 0, 7, 32749, 1 << 40];
            for (number, room) in numbers.into_iter().flat_map(|number| [(number, BLOCK), (number, 511)]) {
                said(&one, &block(other), number, room, refused(24, i, 0));
                said(&block(other), &one, number, room, refused(24, i, 0));
                said(&one, &block(more), number, room, refused(24, i, 0));
            }
        }
    }
    // word 2, the year and the values may differ
    let mut other = head;
    other[1] = 8;
    said(&one, &block(other), 9, BLOCK, Ok(1));
    let mut other = block(other);
    with_word(&mut other, 24, 2026, true);
    said(&one, &other, 9, BLOCK, Ok(1));
    // and UNLIKE is said before a bad year
    with_word(&mut other, 7, 1, true);
    said_in(&one, &other, (9, 32749), 0, refused(24, 7, 0));
}

#[test]
fn numbers() {
    let (one, two) = fellows();
    for number in [0, 7, 8, 32749, 32750, 65535, 65536, 65536 + 9, 1 << 32, (1 << 32) + 9, 1 << 40, (1 << 40) + 9, usize::MAX] {
        for room in [BLOCK, 511, 0] {
            said(&one, &two, number, room, refused(8, 0, 0));
            said(&two, &one, number, room, refused(8, 0, 0));
        }
    }
    for number in [1, 2, 6, 9, 263, 264, 32747, 32748] {
        let out = said(&one, &two, number, BLOCK, Ok(1));
        assert_eq!(words_of(&out)[1] as usize, number);
    }
    // a block and itself, and two blocks of one number
    let mut same = two.clone();
    with_word(&mut same, 2, 7, true);
    for other in [&one, &same] {
        said(&one, other, 7, BLOCK, refused(8, 0, 0));
        said(&one, other, 8, BLOCK, Ok(1));
    }
    assert_eq!(words_of(&said(&one, &one, 8, BLOCK, Ok(1)))[7], 2492);
}

#[test]
fn years() {
    let (one, two) = fellows_in(2026, 0);
    for (x, y) in [(&one, &two), (&two, &one)] {
        for year in [32749, 32750, 65535, 65536, 65536 + 2026, 1 << 32, 1 << 40, (1 << 40) + 2026, usize::MAX] {
            for room in [BLOCK, 511, 0] {
                // a good number, and both old ones; a bad number is said before
                for number in [9, 7, 8] {
                    said_in(x, y, (number, year), room, refused(25, 0, 0));
                }
                for number in [0, 32749, 65536 + 7] {
                    said_in(x, y, (number, year), room, refused(8, 0, 0));
                }
            }
        }
        for year in [0, 1, 255, 256, 2025, 2026, 2027, 32747, 32748] {
            let out = said_in(x, y, (9, year), BLOCK, Ok(1));
            let words = words_of(&out);
            assert_eq!((words[1], words[23], words[7]), (9, year as u16, 1246));
            assert!(words[8..23].iter().chain(&words[24..255]).all(|word| *word == 0));
            assert_eq!(reference::check(&words), words[255]);
        }
    }
}

/// The pair of number and year is an old one, of either block, or it is not: either of the two may come again alone.
#[test]
fn repeated_pairs() {
    let (one, two) = fellows_in(2026, 1999);
    for (x, y) in [(&one, &two), (&two, &one)] {
        for pair in [(7, 2026), (8, 1999)] {
            for room in [BLOCK, 511, 0] {
                said_in(x, y, pair, room, refused(8, 0, 0));
            }
        }
        // the number of the one with the year of the other; a number again, a year again
        for (number, year) in [(7, 1999), (8, 2026), (7, 0), (8, 0), (7, 2027), (7, 2025), (7, 2026 - 256), (8, 32748), (9, 2026), (9, 1999), (263, 2026)] {
            let words = words_of(&said_in(x, y, (number, year), BLOCK, Ok(1)));
            assert_eq!((words[1] as usize, words[23] as usize), (number, year));
            said_in(x, y, (number, year), 511, refused(12, 1, 0));
        }
    }
    // two blocks of one number and one year, and of one number in two years
    let again = |year: u16| {
        let mut block = two.clone();
        with_word(&mut block, 2, 7, true);
        with_word(&mut block, 24, year, true);
        block
    };
    said_in(&one, &again(2026), (7, 2026), BLOCK, refused(8, 0, 0));
    said_in(&one, &again(2026), (7, 1999), BLOCK, Ok(1));
    for year in [2026, 1999] {
        said_in(&one, &again(1999), (7, year), BLOCK, refused(8, 0, 0));
    }
    said_in(&one, &again(1999), (7, 2000), BLOCK, Ok(1));
}

#[test]
fn rooms() {
    let (one, two) = fellows();
    for room in [0, 1, 256, 510, 511] {
        said(&one, &two, 9, room, refused(12, 1, 0));
    }
    for room in [512, 513, 1024] {
        let out = said(&one, &two, 9, room, Ok(1));
        assert!(out[BLOCK..].iter().all(|byte| *byte == 9));
    }
}

/// Sums of 0, 32748, 32749, 32750 and 65496, the least and the most, in each of sixteen words.
#[test]
fn sums() {
    let block = |deal: u16, values: &[u16]| bytes_of(&block_words([1987, deal, 1, 8, 70, 16, 70], values, 0)).to_vec();
    for (x, y, sum) in [(0, 0, 0), (32748, 0, 32748), (16374, 16374, 32748), (32748, 1, 0), (16374, 16375, 0), (32748, 2, 1), (32748, 32748, 32747)] {
        for i in 0..16 {
            let (mut xs, mut ys, mut sums) = ([1; 16], [2; 16], [3; 16]);
            (xs[i], ys[i], sums[i]) = (x, y, sum);
            for (one, two) in [(block(1, &xs), block(32748, &ys)), (block(5, &ys), block(6, &xs))] {
                assert!(said(&one, &two, 9, BLOCK, Ok(1)) == block(9, &sums));
            }
        }
    }
}
