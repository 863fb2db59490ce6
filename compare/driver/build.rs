//! Links each program with the library under test, and the bench with what it is held beside as well. `compare/run` sets both variables;
//! the second has a word on each line.

use std::env;

fn main() {
    let library = env::var("HF_LIBRARY").expect("HF_LIBRARY names the static library");
    let others = env::var("HF_OTHERS").unwrap_or_default();
    println!("cargo::rustc-link-arg-bins={library}");
    println!("cargo::rerun-if-changed={library}");
    println!("cargo::rerun-if-env-changed=HF_LIBRARY");
    println!("cargo::rerun-if-env-changed=HF_OTHERS");
    for word in others.lines() {
        println!("cargo::rustc-link-arg-bin=bench={word}");
        if word.ends_with(".o") {
            println!("cargo::rerun-if-changed={word}");
        }
    }
}
