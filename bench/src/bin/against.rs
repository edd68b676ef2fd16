//! against SEED COUNT FOLDER COMMAND [ARGUMENT..]: a joining program beside target/run/join, which ./join runs, on the stored piles, on
//! every group of the sample cards, by either scheme, on an old card among them, on cards without a year and on COUNT random piles, good and damaged, every fourth of
//! them by sets. Prints where the two differ and
//! keeps that pile in FOLDER; status 0 only where they never do. tools/against calls it, after ./join has built what it runs.
use bench::cards::EARLIER;
use bench::inputs;
use bench::numbers::Numbers;
use bench::reference::joining;
use bench::sets;
use std::collections::BTreeMap;
use std::io::{Read, Write};
use std::os::unix::process::ExitStatusExt;
use std::path::{Path, PathBuf};
use std::process::{exit, Command, Stdio};
use std::sync::mpsc::channel;
use std::thread;
use std::time::{Duration, Instant};

/// How long a program may take for one pile.
const LIMIT: Duration = Duration::from_secs(10);

/// What a program printed, and how it ended where that was by no exit of its own.
#[derive(PartialEq)]
struct Said {
    printed: Vec<u8>,
    ended: Option<String>,
}

impl Said {
    fn shown(&self) -> String {
        let printed = self.printed[..self.printed.len().min(200)].escape_ascii();
        let ended = self.ended.as_ref().map_or(String::new(), |how| format!(", {how}"));
        format!("\"{printed}\"{ended}")
    }
}

fn run(program: &[String], pile: &[u8]) -> Said {
    let mut command = Command::new(&program[0]);
    let started = command.args(&program[1..]).stdin(Stdio::piped()).stdout(Stdio::piped()).spawn();
    let mut running = started.unwrap_or_else(|e| {
        eprintln!("{}: {e}", program[0]);
        exit(2)
    });
    let until = Instant::now() + LIMIT;
    let (mut input, output, pile) = (running.stdin.take().unwrap(), running.stdout.take().unwrap(), pile.to_vec());
    // a program that has read enough may close its input, and one that prints without end is cut
    thread::spawn(move || input.write_all(&pile).ok());
    let (send, receive) = channel();
    thread::spawn(move || {
        let mut printed = Vec::new();
        output.take(1 << 16).read_to_end(&mut printed).ok();
        send.send(printed).ok();
    });
    let printed = receive.recv_timeout(LIMIT).unwrap_or_default();
    loop {
        match running.try_wait().unwrap() {
            Some(status) => return Said { printed, ended: status.signal().map(|signal| format!("ended by signal {signal}")) },
            None if Instant::now() < until => thread::sleep(Duration::from_millis(1)),
            None => {
                running.kill().ok();
                running.wait().ok();
                return Said { printed, ended: Some(format!("had not ended after {} s", LIMIT.as_secs())) };
            }
        }
    }
}

/// Theirs and ours, and what was seen.
struct Trial {
    theirs: Vec<String>,
    ours: Vec<String>,
    folder: PathBuf,
    of: usize,
    piles: usize,
    differ: usize,
    answers: BTreeMap<String, usize>,
    told: Instant,
}

impl Trial {
    /// Tries one pile. Where the two differ it is kept in its file, if that is one of the folder.
    fn on(&mut self, file: PathBuf, pile: &[u8]) {
        let (theirs, ours) = (run(&self.theirs, pile), run(&self.ours, pile));
        self.piles += 1;
        let line = String::from_utf8_lossy(&ours.printed);
        let words = line.split_whitespace().take(if line.starts_with("refused") { 2 } else { 1 });
        *self.answers.entry(words.collect::<Vec<_>>().join(" ")).or_default() += 1;
        if theirs != ours {
            self.differ += 1;
            if file.starts_with(&self.folder) {
                std::fs::create_dir_all(&self.folder).and_then(|()| std::fs::write(&file, pile)).unwrap();
            }
            let third = joining(pile);
            let sides = match (third == theirs.printed, third == ours.printed) {
                (true, false) => "as theirs".to_string(),
                (_, true) => "as ours".to_string(),
                _ => format!("\"{}\"", third.escape_ascii()),
            };
            println!("{}: theirs {}; ours {}; the independent Rust {sides}", file.display(), theirs.shown(), ours.shown());
        }
        if self.told.elapsed() > Duration::from_secs(5) {
            eprintln!("against: {} of {} piles, {} differ", self.piles, self.of, self.differ);
            self.told = Instant::now();
        }
    }
}

fn stored(top: &Path) -> Vec<PathBuf> {
    let files = std::fs::read_dir(top.join("crates/runs_join/data")).unwrap().map(|file| file.unwrap().path());
    let mut files: Vec<PathBuf> = files.chain(["samples/dirty", "samples/two_years", "samples/two_schemes"].map(|file| top.join(file))).collect();
    files.sort();
    files
}

/// Every group of so many people with cards in samples/; the cards.
fn groups(trial: &mut Trial, top: &Path, name: &str, people: usize) -> Vec<Vec<u8>> {
    let cards: Vec<Vec<u8>> = (1..=people).map(|holder| std::fs::read(top.join(format!("samples/{name}{holder}"))).unwrap()).collect();
    for group in 0..1 << people {
        let holders: Vec<usize> = (1..=people).filter(|holder| group >> (holder - 1) & 1 == 1).collect();
        let members: String = holders.iter().map(|holder| format!("-{holder}")).collect();
        let pile: Vec<u8> = holders.iter().flat_map(|holder| cards[holder - 1].clone()).collect();
        trial.on(trial.folder.join(format!("samples-{name}{members}")), &pile);
    }
    cards
}

fn main() {
    let words: Vec<String> = std::env::args().skip(1).collect();
    let (Some(seed), Some(count), true) =
        (words.first().and_then(|word| word.parse().ok()), words.get(1).and_then(|word| word.parse::<usize>().ok()), words.len() > 3)
    else {
        eprintln!("against SEED COUNT FOLDER COMMAND [ARGUMENT..]");
        exit(2)
    };
    let top = Path::new(env!("CARGO_MANIFEST_DIR")).parent().unwrap();
    let at = |path: &str| top.join(path).to_str().unwrap().to_string();
    let folder = PathBuf::from(&words[2]);
    let files = stored(top);
    let mut trial = Trial {
        theirs: words[3..].to_vec(),
        ours: vec![at("tools/x86-64"), "run".to_string(), at("target/run/join")],
        folder: folder.clone(),
        of: files.len() + 64 + 16 + 4 + 4 + count,
        piles: 0,
        differ: 0,
        answers: BTreeMap::new(),
        told: Instant::now(),
    };
    for file in files {
        let pile = std::fs::read(&file).unwrap();
        trial.on(file, &pile);
    }
    let cards = groups(&mut trial, top, "card", 6);
    groups(&mut trial, top, "sets", 4);
    let old = std::fs::read(top.join("samples/old2")).unwrap();
    for at in 0..=3 {
        let mut pile = [1, 5, 6].map(|holder: usize| cards[holder - 1].clone()).to_vec();
        pile.insert(at, old.clone());
        trial.on(folder.join(format!("samples-old-behind-{at}")), &pile.concat());
    }
    let earlier = EARLIER.map(|holder| std::fs::read(top.join(format!("samples/earlier{holder}"))).unwrap());
    for count in 1..=earlier.len() {
        trial.on(folder.join(format!("samples-earlier-{count}")), &earlier[..count].concat());
    }
    let mut n = Numbers::new(seed);
    for at in 1..=count {
        let d = inputs::good_deal(&mut n);
        let pile = match at % 4 {
            0 => {
                let s = sets::by_sets(&mut n, &d);
                sets::pile(&mut n, &d, &s).1
            }
            _ => inputs::pile(&mut n, &d),
        };
        trial.on(folder.join(format!("seed{seed}-pile{at}")), &pile);
    }
    let answers: Vec<String> = trial.answers.iter().map(|(answer, times)| format!("{answer}: {times}")).collect();
    println!("what ours answered: {}", answers.join(", "));
    println!("{} piles, {} differ", trial.piles, trial.differ);
    exit(if trial.differ == 0 { 0 } else { 1 });
}
