//! The two depuncturers: short, exact and surplus input, an output with places to spare and one that is too short.

use super::Run;
use crate::description::Description;
use crate::model::protection;
use crate::random::Random;
use crate::samples::{fitted, shapes};
use crate::tally::{Outcome, Tally, same};
use crate::theirs::{self, Protection};
use crate::{ours, tally};

pub fn msc(run: &Run, tally: &mut Tally) -> Outcome {
    let mut random = run.random("depuncture_msc");
    for d in shapes() {
        let protection = Protection::of(&d).unwrap();
        let (needed, full) = (protection.needed_size(), protection.depunctured_size());
        let d = d.at(random.below(865 - usize::from(d.sub_size)) as u16).flagged(&mut random);
        same(["document 01", "the Rust"], 96 * usize::from(d.bitrate) + 24, full, || format!("length for {d:?}"))?;
        for given in [0, random.below(needed), needed - 1, needed, needed + 1, needed + 8 + random.below(60)] {
            let places = full + *random.pick(&[0, 0, 1, 40]);
            accepted(&protection, &d, &random.soft(given), places, tally)?;
        }
        // Values that tell where they came from.
        let marked: Vec<i8> = (0..needed).map(|i| (i % 251) as u8 as i8).collect();
        accepted(&protection, &d, &marked, full, tally)?;
        for places in [0, random.below(full), full - 1] {
            refused(&d, &random.soft(needed), places, 8, tally)?;
        }
    }
    refusals(run, &mut random, tally)
}

fn accepted(protection: &Protection, d: &Description, soft: &[i8], places: usize, tally: &mut Tally) -> Outcome {
    let before = pattern(places);
    let mut after = protection.depuncture(soft);
    after.extend_from_slice(&before[after.len()..]);
    let input = || format!("{d:?}, {} values, {places} places lent: {}", soft.len(), tally::short(&soft));
    tally.rust(Ok((0, after)), ours::depuncture_msc(soft, d, &before), input)
}

/// Descriptions that are turned away, with an output of any length.
fn refusals(run: &Run, random: &mut Random, tally: &mut Tally) -> Outcome {
    for _ in 0..run.times(10_000, 100_000) {
        let d = Description::any(random);
        let near = Description::eep(random.below(3) as u8, random.below(5) as u8, random.below(900) as u16);
        let near = fitted(near).unwrap_or(near).at(random.below(900) as u16).flagged(random);
        for d in [d, near] {
            let (number, places) = (protection::judge(&d), random.below(4_000));
            if number != 0 {
                let given = random.below(400);
                refused(&d, &random.soft(given), places, number, tally)?;
            }
        }
    }
    Ok(())
}

fn refused(d: &Description, soft: &[i8], places: usize, number: u8, tally: &mut Tally) -> Outcome {
    let before = pattern(places);
    let input = || format!("{d:?}, {} values, {places} places lent", soft.len());
    if matches!(number, 6 | 7) {
        tally.listed += 1;
    }
    let ours = ours::depuncture_msc(soft, d, &before);
    tally.model(Ok((number, before)), ours, input)
}

pub fn fic(run: &Run, tally: &mut Tally) -> Outcome {
    let mut random = run.random("depuncture_fic");
    for _ in 0..run.times(2, 20) {
        for given in (0..=2_400).chain([3_072, 3_096, 9_216]) {
            let soft = random.soft(given);
            let before = pattern(3_096 + *random.pick(&[0, 0, 1, 40]));
            let mut after = theirs::depuncture_fic(&soft);
            same(["document 01", "the Rust"], 3_096, after.len(), || format!("length for {given} values"))?;
            after.extend_from_slice(&before[after.len()..]);
            let input = || format!("{given} values, {} places lent: {}", before.len(), tally::short(&soft));
            tally.rust(Ok((0, after)), ours::depuncture_fic(&soft, &before), input)?;
        }
    }
    for places in 0..3_096 {
        let before = pattern(places);
        let ours = ours::depuncture_fic(&random.soft(2_304), &before);
        tally.model(Ok((8, before)), ours, || format!("2304 values, {places} places lent"))?;
    }
    Ok(())
}

/// What lies in a lent buffer beforehand: never 0, so that a place that is not filled shows.
fn pattern(n: usize) -> Vec<i8> {
    (0..n).map(|i| (i % 127) as i8 - 127).collect()
}
