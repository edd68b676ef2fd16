//! The desk by hand: a walk of two clients, the limits of every word of an opening, of a block's length and of the store from both sides, and where
//! each number lies. Each answer is asked of both implementations.
use bench::inputs::with_word;
use bench::reference::{block_words, bytes_of, Desk, Refusal, OPENING};
use bench::unit;

/// Both desks, which stay the same.
struct Both(Desk, Desk);

type Said = Result<usize, Refusal>;

fn refused(number: usize, a: usize, b: usize) -> Said {
    Err(Refusal { number, a, b })
}

impl Both {
    fn fresh() -> Both {
        Both(Desk::fresh(), Desk::fresh())
    }

    fn same(&self, ours: Said, theirs: Said) -> Said {
        assert_eq!(ours, theirs);
        assert!(self.0 == self.1, "the state differs");
        ours
    }

    fn open(&mut self, client: usize, words: [usize; 5]) -> Said {
        let said = (unit::desk_open(&mut self.0, client, words), self.1.open(client, words));
        self.same(said.0, said.1)
    }

    fn hand_in(&mut self, client: usize, block: &[u8]) -> Said {
        let said = (unit::desk_hand_in(&mut self.0, client, block), self.1.hand_in(client, block));
        self.same(said.0, said.1)
    }

    /// The answer, and the lent words then.
    fn ask(&mut self, client: usize, out: &[u16]) -> (Said, Vec<u16>) {
        let (mut ours, mut theirs) = (out.to_vec(), out.to_vec());
        let said = (unit::desk_ask(&mut self.0, client, &mut ours), self.1.ask(client, &mut theirs));
        assert_eq!(ours, theirs);
        (self.same(said.0, said.1), ours)
    }

    fn close(&mut self, client: usize) -> Said {
        let said = (unit::desk_close(&mut self.0, client), self.1.close(client));
        self.same(said.0, said.1)
    }
}

/// P11's deal: number 7, four people, three pieces, one word, year 0.
const SEVEN: [usize; 5] = [7, 4, 3, 1, 0];

fn block(words: [usize; 5], holder: u16, piece: u16, values: &[u16]) -> Vec<u8> {
    let [deal, people, k, w, year] = words.map(|word| word as u16);
    bytes_of(&block_words([1987, deal, holder, people, k, w, piece], values, year)).to_vec()
}

/// Values 1246, 1272, 1312 of pieces 1, 2, 3, which join to 1234; of holders 4, 2, 1.
fn three(piece: usize) -> Vec<u8> {
    block(SEVEN, [4, 2, 1][piece - 1], piece as u16, &[[1246, 1272, 1312][piece - 1]])
}

#[test]
fn a_walk() {
    let mut both = Both::fresh();
    let other = |k: usize| [8, 8, k, 16, 2026];
    assert_eq!(both.open(1, SEVEN), Ok(3));
    assert_eq!(both.ask(1, &[9]), (refused(20, 0, 3), vec![9]));
    assert_eq!(both.hand_in(1, &three(1)), Ok(1));
    assert_eq!(both.ask(1, &[]), (refused(20, 1, 3), vec![]));
    assert_eq!(both.hand_in(1, &three(1)), Ok(1));
    assert_eq!(both.open(2, other(68)), refused(28, 0, 0));
    assert_eq!(both.open(2, other(67)), Ok(67));
    assert_eq!(both.hand_in(1, &three(2)), Ok(2));
    assert_eq!(both.hand_in(2, &three(3)), refused(18, 1, 0));
    assert_eq!(both.ask(1, &[9, 9]), (refused(20, 2, 3), vec![9, 9]));
    assert_eq!(both.hand_in(1, &block(SEVEN, 1, 2, &[1273])), refused(19, 1, 0));
    assert_eq!(both.hand_in(1, &three(3)), Ok(3));
    assert_eq!(both.ask(1, &[9, 9]), (Ok(1), vec![1234, 9]));
    assert_eq!(both.ask(1, &[9]), (Ok(1), vec![1234]));
    assert_eq!(both.ask(1, &[]), (refused(12, 1, 0), vec![]));
    assert_eq!(both.open(1, SEVEN), refused(27, 0, 0));
    assert_eq!(both.close(1), Ok(3));
    assert_eq!(both.close(1), refused(29, 0, 0));
    assert_eq!(both.hand_in(1, &three(1)), refused(29, 0, 0));
    assert_eq!(both.open(1, [7, 4, 4, 1, 0]), refused(28, 0, 0));
    assert_eq!(both.open(1, SEVEN), Ok(3));
    assert_eq!(both.ask(1, &[9]), (refused(20, 0, 3), vec![9]));
    assert_eq!(both.close(1), Ok(3));
    assert_eq!(both.close(2), Ok(67));
    assert!(both.0 == Desk::fresh());
}

/// Client 1's piece j is in slot j, client 2's in slot 71 - j: a mark and the values, and 0 behind them.
#[test]
fn where_pieces_lie() {
    for w in 1..=16 {
        let mut both = Both::fresh();
        let mut due = Desk::fresh();
        for (client, k) in [(1, 35), (2, 35)] {
            let words = [client, 8, k, w, 2026];
            assert_eq!(both.open(client, words), Ok(k));
            due.words[client - 1] = words;
            for j in 1..=k {
                let values: Vec<u16> = (0..w).map(|i| (client * 10000 + j * 100 + i) as u16).collect();
                let slot = if client == 1 { j - 1 } else { 70 - j };
                due.slots[slot][0] = 1;
                due.slots[slot][1..=w].copy_from_slice(&values);
                assert_eq!(both.hand_in(client, &block(words, 1, j as u16, &values)), Ok(j));
                assert!(both.0 == due);
            }
        }
        // closing one leaves the other's
        let mut without = both.0.clone();
        without.slots[..35].fill([0; 17]);
        without.words[0] = [0; 5];
        assert_eq!(both.close(1), Ok(35));
        assert!(both.0 == without);
        assert_eq!(both.close(2), Ok(35));
        assert!(both.0 == Desk::fresh());
    }
}

/// Every k beside every k.
#[test]
fn slots_for_both() {
    for (one, two) in [(1, 2), (2, 1)] {
        for first in 1..=70 {
            let mut both = Both::fresh();
            assert_eq!(both.open(one, [1, 1, first, 1, 0]), Ok(first));
            for second in (1..=70).rev() {
                if first + second > 70 {
                    assert_eq!(both.open(two, [1, 1, second, 1, 0]), refused(28, 0, 0));
                } else {
                    assert_eq!(both.open(two, [1, 1, second, 1, 0]), Ok(second));
                    assert_eq!(both.close(two), Ok(second));
                }
            }
        }
    }
}

/// Each word of an opening at both ends of its range and outside, alone and before each later one.
#[test]
fn openings() {
    for client in [1, 2] {
        for (at, (word, least, most)) in OPENING.into_iter().enumerate() {
            let with = |value: usize| std::array::from_fn(|i| if i == at { value } else { SEVEN[i] });
            for good in [least, least + 1, most - 1, most] {
                let mut both = Both::fresh();
                let words = with(good);
                assert_eq!(both.open(client, words), Ok(words[2]));
                assert_eq!(both.0.words[client - 1], words);
            }
            let low = if least > 0 { vec![0] } else { vec![] };
            for bad in [low, vec![most + 1, 32749, 65535, 65536, 65536 + SEVEN[at], (1 << 32) + SEVEN[at], 1 << 40, usize::MAX]].concat() {
                let mut both = Both::fresh();
                let mut words: [usize; 5] = with(bad);
                assert_eq!(both.open(client, words), refused(17, 0, word));
                for later in at + 1..5 {
                    words[later] = usize::MAX;
                    assert_eq!(both.open(client, words), refused(17, 0, word));
                }
                // FULL is not looked for, and BUSY is before it
                assert_eq!(both.open(3 - client, [1, 1, 70, 1, 0]), Ok(70));
                assert_eq!(both.open(client, words), refused(17, 0, word));
                assert_eq!(both.open(3 - client, words), refused(27, 0, 0));
            }
        }
    }
}

#[test]
fn nobody() {
    for client in [0, 3, 4, 255, 256, 257, 65537, 65538, (1 << 32) + 1, (1 << 32) + 2, usize::MAX - 1, usize::MAX] {
        let mut both = Both::fresh();
        for open in [false, true] {
            if open {
                assert_eq!((both.open(1, SEVEN), both.open(2, SEVEN)), (Ok(3), Ok(3)));
            }
            let none = refused(26, 0, 0);
            assert_eq!(both.open(client, SEVEN), none);
            assert_eq!(both.open(client, [0; 5]), none);
            assert_eq!(both.hand_in(client, &three(1)), none);
            assert_eq!(both.hand_in(client, &[]), none);
            assert_eq!(both.ask(client, &[9]), (none, vec![9]));
            assert_eq!(both.close(client), none);
        }
    }
}

/// Each refusal of a block, before a client has opened and after.
#[test]
fn blocks() {
    for client in [1, 2] {
        let mut both = Both::fresh();
        for open in [false, true] {
            if open {
                assert_eq!(both.open(client, SEVEN), Ok(3));
                assert_eq!(both.hand_in(client, &three(2)), Ok(1));
            }
            let want = |said: Said| if open { said } else { refused(29, 0, 0) };
            for length in [0, 1, 511, 513, 1024] {
                let mut torn = three(1);
                torn.resize(length, 0);
                assert_eq!(both.hand_in(client, &torn), want(refused(13, 0, 0)));
            }
            for i in 1..=256 {
                let mut block = three(1);
                with_word(&mut block, i, 32748, false);
                assert_eq!(both.hand_in(client, &block), want(refused(16, 1, 0)));
                with_word(&mut block, i, 32749, false);
                assert_eq!(both.hand_in(client, &block), want(refused(15, 1, i)));
            }
            let front = [(1, 1988), (2, 0), (3, 0), (4, 3), (4, 9), (5, 0), (5, 71), (6, 0), (6, 17), (7, 0), (7, 4)];
            for (i, value) in front.into_iter().chain([9, 23, 25, 255].map(|i| (i, 1))) {
                let mut block = three(1);
                with_word(&mut block, i, value, true);
                assert_eq!(both.hand_in(client, &block), want(refused(17, 1, i)));
            }
            // a true block with one other word of the five, its piece kept or not
            for (i, value) in [(2, 6), (2, 8), (2, 256 + 7), (4, 5), (4, 8), (5, 4), (5, 70), (6, 2), (24, 1), (24, 256), (24, 32748)] {
                for piece in [1, 2] {
                    let mut block = three(piece);
                    with_word(&mut block, i, value, true);
                    assert_eq!(both.hand_in(client, &block), want(refused(18, 1, 0)));
                }
            }
            assert_eq!(both.hand_in(client, &block(SEVEN, 1, 2, &[1271])), want(refused(19, 1, 0)));
            // of another holder, the same
            assert_eq!(both.hand_in(client, &block(SEVEN, 3, 2, &[1272])), want(Ok(1)));
        }
    }
}

/// Sixteen values, each of which may be the one that differs; and asking with any room.
#[test]
fn sixteen_words() {
    let words = [32748, 8, 2, 16, 32748];
    let values: Vec<u16> = (0..16).map(|i| 2000 * i).collect();
    let largest = [32748; 16];
    for client in [1, 2] {
        let mut both = Both::fresh();
        assert_eq!(both.open(client, words), Ok(2));
        assert_eq!(both.hand_in(client, &block(words, 8, 1, &values)), Ok(1));
        for i in 0..16 {
            let mut other = values.clone();
            other[i] += 1;
            assert_eq!(both.hand_in(client, &block(words, 8, 1, &other)), refused(19, 1, 0));
        }
        assert_eq!(both.hand_in(client, &block(words, 1, 2, &largest)), Ok(2));
        // twice the first less the second
        let secret: Vec<u16> = values.iter().map(|value| ((2 * *value as u32 + 1) % 32749) as u16).collect();
        for room in 0..=20 {
            let out = vec![7; room];
            let want = if room < 16 { (refused(12, 16, 0), out.clone()) } else { (Ok(16), [&secret[..], &out[16..]].concat()) };
            assert_eq!(both.ask(client, &out), want);
        }
    }
}
