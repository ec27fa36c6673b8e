//! Root of the Rust original, which comes without one. `compare/build` copies this file beside a
//! copy `rust` of the original's folder, so every module below is the original, unchanged, but for
//! `handler_opened`: see compare/README.md.

#[path = "rust/constants.rs"]
pub mod constants;

#[path = "rust/fec"]
pub mod fec {
    pub mod eep;
    pub mod energy_dispersal;
    pub mod uep;
    pub mod viterbi;
}

#[path = "rust/fic"]
pub mod fic {
    pub mod fib;
    pub mod handler;
}

#[path = "rust/msc/mod.rs"]
pub mod msc;

#[path = "handler_opened.rs"]
pub mod handler_opened;

/// Stand-in: labels are read only by the part of the original that is not ported.
pub mod charsets {
    pub fn ebu_latin_to_utf8(bytes: &[u8]) -> String {
        bytes.iter().map(|&b| b as char).collect()
    }
}
