//! What a comparison counts, and how it says that two answers are not the same.

use std::fmt::Debug;

/// A comparison ends at its first mismatch, told in words.
pub type Outcome = Result<(), String>;

#[derive(Default)]
pub struct Tally {
    /// Held against the Rust.
    pub compared: u64,
    /// Held against the model, where the Rust has no counterpart.
    pub modelled: u64,
    /// Of those, where the Rust answers otherwise, as docs/DIFFERENCES.md lists.
    pub listed: u64,
    /// What else the comparison counted, in words.
    pub note: String,
    /// Why it could not be run at all, where it could not.
    pub not_run: Option<&'static str>,
}

impl Tally {
    /// Ours against the Rust.
    pub fn rust<T: PartialEq + Debug>(&mut self, rust: T, ours: T, input: impl FnOnce() -> String) -> Outcome {
        self.compared += 1;
        same(["the Rust", "ours"], rust, ours, input)
    }

    /// Ours against the model.
    pub fn model<T: PartialEq + Debug>(&mut self, model: T, ours: T, input: impl FnOnce() -> String) -> Outcome {
        self.modelled += 1;
        same(["the model", "ours"], model, ours, input)
    }
}

/// A side condition of an input that is counted elsewhere: what the two named say is the same.
pub fn same<T: PartialEq + Debug>(who: [&str; 2], one: T, other: T, input: impl FnOnce() -> String) -> Outcome {
    if one == other {
        return Ok(());
    }
    let (one, other) = (format!("{one:?}"), format!("{other:?}"));
    let first = one.bytes().zip(other.bytes()).take_while(|(a, b)| a == b).count();
    let input = input();
    Err(format!("{input}\n  {}: {}\n  {}: {}", who[0], around(&one, first), who[1], around(&other, first)))
}

/// The beginning of a value, enough to see it by.
pub fn short(value: &impl Debug) -> String {
    around(&format!("{value:?}"), 0)
}

/// The text about place `at`, so that a difference far into a long answer shows.
fn around(text: &str, at: usize) -> String {
    const MOST: usize = 400;
    if text.len() <= MOST {
        return text.to_string();
    }
    let from = at.saturating_sub(MOST / 4);
    let to = text.len().min(from + MOST);
    let before = if from > 0 { format!("[{from} characters] ..") } else { String::new() };
    let after = if to < text.len() { format!(".. [{} characters]", text.len() - to) } else { String::new() };
    format!("{before}{}{after}", &text[from..to])
}
