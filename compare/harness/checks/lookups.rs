//! The row, the needed size and the depunctured size by description: every bit rate.

use super::Run;
use crate::description::Description;
use crate::lent::Answer;
use crate::model::protection;
use crate::ours;
use crate::random::Random;
use crate::tally::{Outcome, Tally, same};
use crate::theirs::Protection;

/// One of the three: what ours does and what the Rust's protection says.
struct Lookup {
    name: &'static str,
    ours: fn(&Description, &[u64]) -> Answer<(u8, Vec<u64>)>,
    rust: fn(&Protection) -> Vec<u64>,
}

pub fn profile(run: &Run, tally: &mut Tally) -> Outcome {
    all(run, tally, &Lookup { name: "profile", ours: ours::profile, rust: |p| p.row().to_vec() })
}

pub fn needed_size(run: &Run, tally: &mut Tally) -> Outcome {
    let rust = |p: &Protection| vec![p.needed_size() as u64];
    all(run, tally, &Lookup { name: "needed_size", ours: ours::needed_size, rust })
}

pub fn depunctured_size(run: &Run, tally: &mut Tally) -> Outcome {
    let rust = |p: &Protection| vec![p.depunctured_size() as u64];
    all(run, tally, &Lookup { name: "depunctured_size", ours: ours::depunctured_size, rust })
}

fn all(run: &Run, tally: &mut Tally, lookup: &Lookup) -> Outcome {
    let mut random = run.random(lookup.name);
    for bitrate in 0..=u16::MAX {
        for level in 0..=5 {
            for option in 0..=3 {
                one(&Description::eep(option, level, bitrate), lookup, &mut random, tally)?;
            }
            one(&Description::uep(level, bitrate), lookup, &mut random, tally)?;
        }
    }
    for level in 0..=255 {
        for option in 0..=255 {
            let bitrate = random.below(2_000) as u16;
            one(&Description::eep(option, level, bitrate), lookup, &mut random, tally)?;
        }
    }
    Ok(())
}

/// Lends exactly enough, too much, and too little.
fn one(d: &Description, lookup: &Lookup, random: &mut Random, tally: &mut Tally) -> Outcome {
    let d = d.anywhere(random);
    let rust = Protection::of(&d).map(|p| (lookup.rust)(&p));
    let needed = if lookup.name == "profile" { 8 } else { 1 };
    let places = if random.one_in(4) { random.below(needed + 6) } else { needed };
    let before: Vec<u64> = (0..places as u64).map(|i| !i).collect();

    let number = protection::lookup(&d);
    same(["the model", "the Rust"], number == 0, rust.is_some(), || format!("{d:?}"))?;
    let mut after = before.clone();
    let short = number == 0 && places < needed;
    if let Some(values) = rust.filter(|_| !short) {
        after[..needed].copy_from_slice(&values);
    }
    let (number, input) = (if short { 8 } else { number }, || format!("{d:?}, {places} places lent"));
    let ours = (lookup.ours)(&d, &before);
    if short { tally.model(Ok((8, after)), ours, input) } else { tally.rust(Ok((number, after)), ours, input) }
}
