//! The numbers are the model's, since the Rust has none; the model's yes and no are held against
//! the Rust. What only 6 and 7 turn away the Rust accepts, and then never gives a frame.

use super::Run;
use crate::description::Description;
use crate::model::protection;
use crate::random::Random;
use crate::samples::{fitted, shapes};
use crate::tally::{Outcome, Tally, same};
use crate::theirs::UEP_PROFILES;
use crate::{ours, theirs};

pub fn compare(run: &Run, tally: &mut Tally) -> Outcome {
    let mut random = run.random("judge");
    named(tally)?;
    eep(run, &mut random, tally)?;
    uep(&mut random, tally)?;
    places(&mut random, tally)?;
    for _ in 0..run.times(60_000, 1_000_000) {
        one(&Description::any(&mut random), tally)?;
        one(&likely(&mut random), tally)?;
    }
    Ok(())
}

/// Document 01's cases.
fn named(tally: &mut Tally) -> Outcome {
    let cases = [
        (Description::eep(0, 3, 8).sized(4).at(860), 0),
        (Description::eep(0, 3, 8).sized(4).at(861), 7),
        (Description::uep(1, 384).sized(416), 0),
        (Description::uep(1, 384).sized(417), 5),
        (Description::uep(1, 384).sized(415), 5),
        (Description::uep(1, 32).sized(35), 0),
        (Description::eep(0, 1, 8).sized(8), 3),
        (Description::eep(0, 1, 16).sized(16), 0),
    ];
    for (d, number) in cases {
        same(["document 01", "ours"], number, ours::judge(&d), || format!("{d:?}"))?;
        one(&d, tally)?;
    }
    Ok(())
}

/// Every rate up to the widest and some beyond, with the size that it needs and those beside it.
fn eep(run: &Run, random: &mut Random, tally: &mut Tally) -> Outcome {
    for option in 0..=2 {
        for level in 0..=4 {
            for bitrate in 0..=run.times(1_000, 4_000) as u16 {
                let d = Description::eep(option, level, bitrate);
                let Some(d) = fitted(d) else {
                    one(&d.anywhere(random), tally)?;
                    continue;
                };
                one(&d.flagged(random), tally)?;
                one(&d.sized(d.sub_size.wrapping_sub(1)).flagged(random), tally)?;
                one(&d.sized(d.sub_size + 1).flagged(random), tally)?;
            }
        }
    }
    // Sizes past 65,535 units, cut to their low sixteen bits, are not the size needed.
    for option in 0..=1 {
        for level in 0..=3 {
            for bitrate in (0..=u16::MAX).rev().step_by(run.times(97, 7)) {
                let d = Description::eep(option, level, bitrate);
                let units = protection::needed(&d).unwrap_or(0) / 64;
                if units > 65_535 {
                    one(&d.sized(units as u16).flagged(random), tally)?;
                }
            }
        }
    }
    // The Rust allocates sixteen of these, so few.
    for _ in 0..run.times(30, 300) {
        let d = Description::eep(random.below(2) as u8, random.below(4) as u8, random.next() as u16);
        one(&fitted(d).unwrap_or(d).flagged(random), tally)?;
    }
    Ok(())
}

/// Every row with every size around its own, and rates and levels without a row.
fn uep(random: &mut Random, tally: &mut Tally) -> Outcome {
    for p in &UEP_PROFILES {
        for size in 0..=450 {
            one(&Description::uep(p.level, p.bitrate).sized(size), tally)?;
        }
        for other in 0..=255 {
            let d = Description { eep_option: other, ..Description::uep(p.level, p.bitrate) };
            one(&fitted(d).unwrap_or(d), tally)?;
            one(&Description { protection_level: other, ..d }.sized(random.below(450) as u16), tally)?;
        }
    }
    for bitrate in 0..=u16::MAX {
        one(&Description::uep(random.below(7) as u8, bitrate).sized(random.below(450) as u16), tally)?;
    }
    Ok(())
}

/// Every accepted shape around the end of the CIF, and where start plus size passes sixteen bits.
fn places(random: &mut Random, tally: &mut Tally) -> Outcome {
    for d in shapes() {
        let last = 864 - d.sub_size;
        for start in
            [0, last.saturating_sub(1), last, last + 1, 864, 65_535, 65_535 - d.sub_size, 0u16.wrapping_sub(d.sub_size)]
        {
            one(&d.at(start).flagged(random), tally)?;
        }
        // Both 6 and 7 hold: 6 is the number.
        let uneven = Description { bitrate: d.bitrate + 1, ..d };
        one(&uneven.at(last + 1).flagged(random), tally)?;
    }
    Ok(())
}

/// Fields that are nearly right.
pub fn likely(random: &mut Random) -> Description {
    let (level, rate) = (random.below(6) as u8, random.below(300) as u16 * 8);
    let d = if random.one_in(3) {
        let row = random.pick(&UEP_PROFILES);
        Description::uep(row.level, row.bitrate)
    } else {
        Description::eep(random.below(3) as u8, level, rate + u16::from(random.one_in(4)))
    };
    let size = fitted(d).map_or(0, |d| d.sub_size);
    let size = size.wrapping_add(random.below(3) as u16).wrapping_sub(1);
    d.sized(size).at(random.below(900) as u16).flagged(random)
}

fn one(d: &Description, tally: &mut Tally) -> Outcome {
    let number = protection::judge(d);
    let accepted = theirs::accepts(d);
    same(["the model", "the Rust"], matches!(number, 0 | 6 | 7), accepted, || format!("{d:?}"))?;
    if matches!(number, 6 | 7) {
        tally.listed += 1;
        return tally.model(number, ours::judge(d), || format!("{d:?}"));
    }
    tally.rust(number, ours::judge(d), || format!("{d:?}"))
}
