//! The programs list, join and salvager, as rt leaves them in out/ of their crates, against the independent implementation, byte for byte:
//! random policy texts with damaged lines, random piles, and scratched ones.
use bench::inputs;
use bench::numbers::Numbers;
use bench::reference::{joining, listing, salvaging};
use bench::{scratched, sets};
use std::io::Write;
use std::path::Path;
use std::process::{Command, Stdio};

/// What a program writes to standard output and to standard error.
fn run(name: &str, input: &[u8]) -> (Vec<u8>, Vec<u8>) {
    let top = Path::new(env!("CARGO_MANIFEST_DIR")).parent().unwrap();
    let program = top.join("crates").join(name).join("out").join(name);
    let mut running = Command::new(top.join("tools/x86-64"))
        .arg("run")
        .arg(&program)
        .stdin(Stdio::piped())
        .stdout(Stdio::piped())
        .stderr(Stdio::piped())
        .spawn()
        .unwrap_or_else(|e| panic!("{}: {e}; rt run in crates/{name} builds it", program.display()));
    // a program that has read enough closes its input
    running.stdin.take().unwrap().write_all(input).ok();
    let ended = running.wait_with_output().unwrap();
    (ended.stdout, ended.stderr)
}

/// A policy text of a random policy, often with one or two bytes changed, taken out or put in.
fn text(n: &mut Numbers) -> Vec<u8> {
    let (people, required, forbidden) = inputs::policy(n);
    let mut text = format!("people {}\n", people % 10).into_bytes();
    for (word, sets) in [("need", required), ("bar", forbidden)] {
        for set in sets {
            text.extend_from_slice(word.as_bytes());
            for person in (1..=9).filter(|person| set >> (person - 1) & 1 == 1) {
                text.extend_from_slice(format!(" {person}").as_bytes());
            }
            text.push(b'\n');
        }
    }
    if n.once_in(2) {
        for _ in 0..1 + n.below(2) {
            let at = n.below(text.len().max(1));
            let byte = b" \n019nb\r\x80x"[n.below(10)];
            match n.below(3) {
                0 => text.truncate(at),
                1 => text.insert(at, byte),
                _ if at < text.len() => text[at] = byte,
                _ => {}
            }
        }
    }
    text
}

#[test]
fn listings() {
    let mut n = Numbers::new(21);
    for _ in 0..2_000 {
        let text = text(&mut n);
        assert_eq!(run("list", &text), (listing(&text), Vec::new()), "{:?}", String::from_utf8_lossy(&text));
    }
}

#[test]
fn joined_piles() {
    let mut n = Numbers::new(22);
    for at in 0..1_200 {
        let d = inputs::good_deal(&mut n);
        // every sixth by sets
        let pile = match at % 6 {
            5 => {
                let s = sets::by_sets(&mut n, &d);
                sets::pile(&mut n, &d, &s).1
            }
            _ => inputs::pile(&mut n, &d),
        };
        assert_eq!(run("join", &pile), (joining(&pile), Vec::new()), "{d:?}");
    }
}

#[test]
fn salvaged_piles() {
    let mut n = Numbers::new(23);
    for _ in 0..1_000 {
        let d = inputs::good_deal(&mut n);
        let mut blocks = inputs::blocks(&d, (1 << d.people) - 1);
        if n.once_in(6) {
            let s = sets::by_sets(&mut n, &d);
            blocks.extend(sets::blocks(&s, (1 << d.people) - 1));
        }
        let (_, lost, _) = scratched::pile(&mut n, &blocks);
        let (bytes, text) = run("salvager", &lost);
        let (their_bytes, their_text) = salvaging(&lost);
        assert_eq!(String::from_utf8_lossy(&text), String::from_utf8_lossy(&their_text));
        assert!(bytes == their_bytes, "another pile, {d:?}");
    }
}
