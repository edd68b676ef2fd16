//! The files of samples/ are, byte for byte, what the proved dealer writes, the policy text there is the one that they were dealt by, and what
//! README's walk shows of them is so. The cards of the former layout join as they did.
use bench::cards::{earlier, example_1, samples, EARLIER};
use bench::reference::{joining, read_policy, salvaging, words_of, BLOCK};
use bench::unit;
use std::path::{Path, PathBuf};

fn folder() -> PathBuf {
    Path::new(env!("CARGO_MANIFEST_DIR")).parent().unwrap().join("samples")
}

#[test]
fn dealt_again() {
    let files = [samples(), earlier()].concat();
    for (name, bytes) in &files {
        assert!(std::fs::read(folder().join(name)).unwrap() == *bytes, "samples/{name} is not what the proved dealer writes");
    }
    let others = std::fs::read_dir(folder()).unwrap().map(|file| file.unwrap().file_name().into_string().unwrap());
    let others: Vec<String> = others.filter(|name| files.iter().all(|(dealt, _)| dealt != name)).collect();
    assert!(others.iter().all(|name| name.ends_with(".txt")), "{others:?}");
}

#[test]
fn dealt_by_that_policy() {
    assert_eq!(read_policy(&std::fs::read(folder().join("six.txt")).unwrap()), Ok((6, example_1(), Vec::new())));
}

/// Files of samples/, one behind the other.
fn cat(names: &[&str]) -> Vec<u8> {
    names.iter().flat_map(|name| std::fs::read(folder().join(name)).unwrap()).collect()
}

#[test]
fn the_walk() {
    let says = |names: &[&str], line: &str| assert_eq!(joining(&cat(names)), line.as_bytes(), "{names:?}");
    says(&["card1", "card2", "card5", "card6"], "secret 1234 0 32748 5678\n");
    says(&["card1", "card3"], "refused 20 6 12\n");
    says(&["dirty"], "refused 15 5 9\n");
    let (pile, report) = salvaging(&cat(&["dirty"]));
    assert!(pile == cat(&["card1", "card2", "card5", "card6"]));
    assert_eq!(report, b"rebuilt 1\nblock 5 word 9\n");
    // four blocks of another deal, on three, five and five: wherever they lie, they are named
    says(&["old2", "card1", "card5", "card6"], "refused 18 1 0\n");
    says(&["card1", "old2", "card5", "card6"], "refused 18 4 0\n");
    says(&["card1", "card5", "card6", "old2"], "refused 18 14 0\n");
    // holder 2's card, alike in all but its year
    says(&["two_years"], "refused 18 4 0\n");
    assert!(cat(&["two_years"]) == cat(&["card1", "earlier2", "card5", "card6"]));
}

/// P1's cards by sets, with the words that SCOPE 8 works out; two people next to each other open, whoever they are. Under them the first scheme's card of
/// the same number is of another deal.
#[test]
fn by_sets() {
    let heads = |name: &str| cat(&[name]).chunks(BLOCK).map(|block| (words_of(block)[24], words_of(block)[7], words_of(block)[255])).collect::<Vec<_>>();
    assert_eq!(heads("sets1"), [(1, 1239, 11981)]);
    assert_eq!(heads("sets2"), [(1, 1244, 12031), (2, 1241, 12025)]);
    assert_eq!(heads("sets3"), [(2, 1248, 12091), (3, 1243, 12069)]);
    assert_eq!(heads("sets4"), [(3, 1252, 12151)]);
    for (one, two, line) in [(1, 2, "secret 1234\n"), (3, 2, "secret 1234\n"), (3, 4, "secret 1234\n"), (1, 3, "refused 20 0 0\n"), (4, 2, "refused 20 0 0\n")] {
        assert_eq!(joining(&cat(&[&format!("sets{one}"), &format!("sets{two}")])), line.as_bytes());
    }
    assert_eq!(joining(&cat(&["two_schemes"])), b"refused 18 1 0\n");
    assert!(cat(&["two_schemes"])[BLOCK..] == cat(&["sets1", "sets2", "sets3"]));
}

/// The cards that are kept of the time when blocks had no year: 0 in word 24, and else the cards of 2026 but for the check. By every joiner they
/// join as they did; some of them are SHORT, and with a card of 2026 they are MIXED.
#[test]
fn the_former_layout() {
    let names = EARLIER.map(|holder| format!("earlier{holder}"));
    for (name, holder) in names.iter().zip(EARLIER) {
        let (old, new) = (cat(&[name]), cat(&[&format!("card{holder}")]));
        assert_eq!(old.len(), new.len());
        for (old, new) in old.chunks(BLOCK).zip(new.chunks(BLOCK)) {
            let (mut words, new) = (words_of(old), words_of(new));
            assert_eq!((words[23], new[23]), (0, 2026));
            (words[23], words[255]) = (2026, new[255]);
            assert_eq!(words, new);
        }
    }
    let names = names.each_ref().map(|name| name.as_str());
    for join in unit::JOINERS {
        let mut out = [9; 5];
        assert_eq!((join(&cat(&names), &mut out), out), (Ok(4), [1234, 0, 32748, 5678, 9]));
        assert_eq!(join(&cat(&names[..2]), &mut out).map_err(|r| r.number), Err(20));
        for at in 0..=4 {
            let mut pile = names.to_vec();
            pile.insert(at, "card3");
            assert_eq!(join(&cat(&pile), &mut out).map_err(|r| r.number), Err(18));
        }
    }
    assert_eq!(joining(&cat(&names)), b"secret 1234 0 32748 5678\n");
}
