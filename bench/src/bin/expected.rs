//! expected list|join|salvage FILE..: what the listing or the joining program prints for each file, by the independent implementation, under the
//! file's name; of salvage the report, and what the joining program prints for the salvaged pile, where there are bytes. The stored outputs of
//! crates/runs_list and crates/runs_join come from here, and those of crates/runs_salvage agree with it.
use bench::reference::{joining, listing, salvaging};
use std::io::Write;
use std::path::Path;

/// The salvaging program's report, and the line of the joining program behind it.
fn salvaged(pile: &[u8]) -> Vec<u8> {
    let (bytes, mut text) = salvaging(pile);
    if !bytes.is_empty() {
        text.extend(joining(&bytes));
    }
    text
}

fn main() {
    let mut words = std::env::args().skip(1);
    let program = match words.next().as_deref() {
        Some("list") => listing,
        Some("join") => joining,
        Some("salvage") => salvaged,
        _ => panic!("expected list|join|salvage FILE.."),
    };
    let mut out = std::io::stdout();
    for file in words {
        let name = Path::new(&file).file_name().unwrap().to_str().unwrap();
        out.write_all(format!("{name}: ").as_bytes()).unwrap();
        out.write_all(&program(&std::fs::read(&file).unwrap())).unwrap();
    }
}
