//! The lane run three times over: the Rust's own files, unchanged, and for chosen ranges changed in two places or three; the port, linked as
//! a static library; and a model written from document 01, for what the Rust doesn't say (steps of a refusal, lent memory) and for what it
//! refuses against the manual. With it demand 3's scalar run, and cases for all.

include!(concat!(env!("OUT_DIR"), "/sources.rs"));

pub mod answer;
pub mod asm;
pub mod boundaries;
pub mod cases;
pub mod compare;
pub mod hints;
pub mod known;
pub mod machine;
pub mod model;
pub mod original;
pub mod port;
pub mod quotients;
pub mod random;
pub mod range;
pub mod range_cases;
pub mod scalar;
pub mod upper_halves;
