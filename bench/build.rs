//! Links the proved library, target/staticlib/libtitmeadow.a, which `tools/archive` makes; on a machine that is not x86-64, which the library
//! is for, it compiles a program around the library instead (served.c), and tells src/unit/served.rs where it is.
use std::path::{Path, PathBuf};
use std::process::Command;

fn ran(program: impl AsRef<Path>, top: &Path, words: &[&str]) {
    let ended = Command::new(program.as_ref()).args(words).current_dir(top).status();
    assert!(ended.is_ok_and(|status| status.success()), "{} {} failed", program.as_ref().display(), words.join(" "));
}

fn main() {
    let top = Path::new(env!("CARGO_MANIFEST_DIR")).parent().unwrap();
    let library = top.join("target/staticlib/libtitmeadow.a");
    if !library.exists() {
        ran(top.join("tools/archive"), top, &[]);
    }
    println!("cargo:rerun-if-changed={}", library.display());
    if std::env::var("CARGO_CFG_TARGET_ARCH").unwrap() == "x86_64" {
        println!("cargo:rustc-link-search=native={}", library.parent().unwrap().display());
        println!("cargo:rustc-link-lib=static=titmeadow");
    } else {
        let served = PathBuf::from(std::env::var("OUT_DIR").unwrap()).join("served");
        let words = ["cc", "-O2", "-Wall", "-Werror", "-I", "include", "bench/served.c", "target/staticlib/libtitmeadow.a", "-o"];
        ran(top.join("tools/x86-64"), top, &[&words[..], &[served.to_str().unwrap()]].concat());
        println!("cargo:rustc-env=SERVED={}", served.display());
        println!("cargo:rerun-if-changed=served.c");
    }
}
