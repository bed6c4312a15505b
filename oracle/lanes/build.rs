//! Names the Rust's two files, which stay where they are, makes the run's two changed copies, and names the port's static library.

use std::path::{Path, PathBuf};
use std::{env, fs};

/// A text in the Rust's run, what stands there in a copy, and in how many places.
type Change = (&'static str, &'static str, usize);

/// The constants' lines go, and their uses ask for the chosen range.
const CONSTANTS: [Change; 4] = [
    ("pub const INVALID_PREDICATE_FIRST: u8 = 6;\n", "", 1),
    ("pub const INVALID_PREDICATE_LANES: usize = 250;\n", "", 1),
    ("INVALID_PREDICATE_FIRST", "crate::range::first()", 2),
    ("INVALID_PREDICATE_LANES", "crate::range::lanes()", 10),
];

/// The last input, which the Rust spells in `input_domain` without a constant.
const END: Change = ("..=u8::MAX", "..=crate::range::last()", 1);

fn folder(variable: &str, holds: &str, otherwise: Option<PathBuf>) -> PathBuf {
    println!("cargo:rerun-if-env-changed={variable}");
    let named = env::var_os(variable).map(PathBuf::from).or(otherwise);
    let folder = named.unwrap_or_else(|| panic!("{variable} must name the folder that holds {holds}"));
    let found = folder.join(holds);
    println!("cargo:rerun-if-changed={}", found.display());
    assert!(found.exists(), "{variable}: no {holds} in {}", folder.display());
    folder.canonicalize().unwrap()
}

/// The text with a change made, which must have just so many places: another text ends the build.
fn changed(text: String, (from, to, places): Change) -> String {
    assert_eq!(text.matches(from).count(), places, "places of {from:?} in riscv32imc_predicate.rs");
    text.replace(from, to)
}

fn module(file: &Path) -> String {
    let name = file.file_stem().unwrap().to_str().unwrap();
    format!("#[allow(dead_code)]\n#[path = {file:?}]\npub mod {name};\n")
}

fn main() {
    let root = PathBuf::from(env::var_os("CARGO_MANIFEST_DIR").unwrap());
    let sources = folder("RUST_SOURCES", "riscv32imc_predicate.rs", None);
    let made = PathBuf::from(env::var_os("OUT_DIR").unwrap());
    let run = sources.join("riscv32imc_predicate.rs");
    let constants = CONSTANTS.into_iter().fold(fs::read_to_string(&run).unwrap(), changed);
    let copies = [("changed_constants.rs", constants.clone()), ("changed_end.rs", changed(constants, END))];
    let mut modules = module(&sources.join("riscv32imc.rs")) + &module(&run);
    for (name, text) in copies {
        fs::write(made.join(name), text).unwrap();
        modules += &module(&made.join(name));
    }
    fs::write(made.join("sources.rs"), modules).unwrap();
    let library = folder("LANE_LIBRARY", "liblane_exports.a", Some(root.join("../../target/staticlib")));
    println!("cargo:rustc-link-search=native={}", library.display());
    println!("cargo:rustc-link-lib=static=lane_exports");
}
