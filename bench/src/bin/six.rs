//! The custodians' trial: every group of six, on card files of the proved dealer, through ./join, by the first scheme and by sets. Writes docs/SIX.md; fails
//! where a group that contains a required set got anything but the secret, or another group anything but SHORT, and where a card differs from the
//! independent implementation's.
use bench::cards::{deal_of, dealt, dealt_by_sets, example_1, set, sets_deal_of};
use bench::reference::{joining, Deal};
use std::fmt::Write;
use std::io::Write as _;
use std::path::{Path, PathBuf};
use std::process::{Command, Stdio};

fn join(top: &Path, pile: &[u8]) -> String {
    let mut program = Command::new(top.join("join")).stdin(Stdio::piped()).stdout(Stdio::piped()).spawn().expect("./join");
    program.stdin.take().unwrap().write_all(pile).unwrap();
    String::from_utf8(program.wait_with_output().unwrap().stdout).unwrap()
}

const SECRET: [u16; 3] = [4711, 815, 32748];

/// What was seen: cards, their bytes, groups that got what they should not, and the tables.
#[derive(Default)]
struct Trial {
    cards: usize,
    bytes: usize,
    groups: usize,
    wrong: usize,
    tables: String,
}

impl Trial {
    /// All groups with the cards of a deal, which are written to a folder first.
    fn of(&mut self, top: &Path, folder: PathBuf, d: &Deal, by_sets: bool) {
        std::fs::create_dir_all(&folder).unwrap();
        let file = |person: usize| folder.join(format!("card{person}"));
        for person in 1..=6 {
            let card = if by_sets { dealt_by_sets(d, person) } else { dealt(d, person) };
            std::fs::write(file(person), &card).unwrap();
            self.cards += 1;
            self.bytes += card.len();
        }
        writeln!(self.tables, "\nSecret {SECRET:?}.\n\n| group | authorised | blocks | ./join printed |\n|---|---|---|---|").unwrap();
        for group in 0..64u16 {
            let members: Vec<usize> = (1..=6).filter(|person| group >> (person - 1) & 1 == 1).collect();
            let pile: Vec<u8> = members.iter().flat_map(|person| std::fs::read(file(*person)).unwrap()).collect();
            let authorised = d.required.iter().any(|need| need & !group == 0);
            let said = join(top, &pile);
            let expected = match authorised {
                true => said == "secret 4711 815 32748\n",
                false if by_sets => said == "refused 20 0 0\n",
                false => said.starts_with("refused 20 "),
            };
            self.groups += 1;
            self.wrong += (!expected || said.as_bytes() != joining(&pile)) as usize;
            let names: Vec<String> = members.iter().map(usize::to_string).collect();
            let names = if names.is_empty() { "nobody".to_string() } else { names.join(" ") };
            let (authorised, blocks) = (if authorised { "yes" } else { "no" }, pile.len() / 512);
            writeln!(self.tables, "| {names} | {authorised} | {blocks} | `{}` |", said.trim_end()).unwrap();
        }
    }
}

fn main() {
    let top = Path::new(env!("CARGO_MANIFEST_DIR")).parent().unwrap();
    let threes: Vec<u16> = (0..64u16).filter(|set| set.count_ones() == 3).collect();
    let policies = [
        ("source 003's Example 1", example_1()),
        ("any three of six", threes),
        ("1 with 2, or 3, 4, 5 and 6", vec![set(&[1, 2]), set(&[3, 4, 5, 6])]),
    ];
    let mut trial = Trial::default();
    for (at, (name, required)) in policies.iter().enumerate() {
        writeln!(trial.tables, "\n## {name}").unwrap();
        let d = deal_of(6, required.clone(), (100 + at, 2026), &SECRET, 11 + at as u64);
        trial.of(top, top.join(format!("target/six{at}")), &d, false);
    }
    for (at, (name, required)) in policies.iter().enumerate() {
        writeln!(trial.tables, "\n## {name}, by sets").unwrap();
        let d = sets_deal_of(6, required.clone(), (200 + at, 2026), &SECRET, 14 + at as u64);
        trial.of(top, top.join(format!("target/six_sets{at}")), &d, true);
    }
    let head = format!(
        "# Every group of six\n\nAll 64 groups of six custodians, their card files piped into `./join`, for three policies, by the first scheme and by sets. The proved\n\
         library dealt the cards (`titmeadow_deal`, `titmeadow_deal_by_sets`), and the independent Rust dealt the same {} cards, {} bytes, again. By sets\n\
         SHORT has no counts. Written by `cargo run --release --bin six` in bench/, which fails where a group got what it should not, or a byte of a card\n\
         differs.\n",
        trial.cards, trial.bytes
    );
    std::fs::write(top.join("docs/SIX.md"), head + &trial.tables).unwrap();
    println!("{} groups, {} wrong", trial.groups, trial.wrong);
    std::process::exit(if trial.wrong == 0 { 0 } else { 1 });
}
