//! Writes the files of samples/ that are dealt. The policy texts there are written by hand, and the cards of the former layout are kept as they
//! were; bench/tests/samples.rs compares all of them.
use bench::cards::samples;
use std::path::Path;

fn main() {
    let folder = Path::new(env!("CARGO_MANIFEST_DIR")).parent().unwrap().join("samples");
    for (name, bytes) in samples() {
        std::fs::write(folder.join(name), bytes).unwrap();
    }
}
