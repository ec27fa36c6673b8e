//! Set-up: 1 to 5 against the Rust, 6 to 8 and every lent byte against the model. What 6 and 7 turn
//! away the Rust takes, and never gives a frame.

use super::Run;
use super::judge::likely;
use super::receivers::places;
use crate::description::Description;
use crate::model::receiver;
use crate::random::Random;
use crate::samples::{anywhere_in_cif, fitted, shapes};
use crate::stores::{Places, RING, STATE, Stores, needs};
use crate::tally::{Outcome, Tally, same};
use crate::{ours, theirs};

pub fn compare(run: &Run, tally: &mut Tally) -> Outcome {
    let mut random = run.random("set_up");
    for d in shapes() {
        let d = anywhere_in_cif(&d, &mut random);
        let (exact, other) = (needs(&d), places(&d, &mut random));
        one(&d, &exact, tally)?;
        one(&d, &other, tally)?;
        for (place, count) in [(RING, exact[RING] - 1), (RING, 0), (STATE, 10), (STATE, 0)] {
            let mut short = exact;
            short[place] = count;
            one(&d, &short, tally)?;
        }
        one(&d.at(865 - d.sub_size), &exact, tally)?;
    }
    for _ in 0..run.times(30_000, 300_000) {
        let d = if random.one_in(4) { Description::any(&mut random) } else { likely(&mut random) };
        let mut given = [0; 10];
        given[STATE] = *random.pick(&[0, 10, 11, 11, 11, 12]);
        let some = random.below(1_024 * 60);
        given[RING] = *random.pick(&[0, 1_024 * 4, 1_024 * 30, some]);
        one(&d, &given, tally)?;
    }
    never_a_frame(run, &mut random, tally)
}

fn one(d: &Description, places: &Places, tally: &mut Tally) -> Outcome {
    let input = || format!("{d:?}, {} places of state and {} of ring lent", places[STATE], places[RING]);
    let told = |why: String| format!("{}: {why}", input());
    let before = Stores::new(*places);
    let (mut model, mut ours) = (before.clone(), ours::Receiver::new(&before));
    let number = receiver::set_up(d, &mut model, places);
    same(["the model", "the Rust"], !(1..=5).contains(&number), theirs::accepts(d), input)?;
    let answer = ours.set_up(d, places);
    if number > 5 {
        tally.listed += u64::from(number < 8);
        tally.model(number, answer, input)?;
    } else {
        tally.rust(number, answer, input)?;
    }
    ours.alike(&model).map_err(told)
}

/// The Rust under 6 and 7.
fn never_a_frame(run: &Run, random: &mut Random, tally: &mut Tally) -> Outcome {
    for _ in 0..run.times(20, 200) {
        let option = random.below(2) as u8;
        let unit = if option == 0 { 8 } else { 32 };
        let rate = unit * (2 + random.below(4)) as u16;
        let d = fitted(Description::eep(option, random.below(4) as u8, rate)).unwrap();
        let uneven = Description { bitrate: rate + 1 + random.below(usize::from(unit) - 1) as u16, ..d };
        let beyond = d.at(865 - d.sub_size + random.below(1_000) as u16);
        for (d, number) in [(uneven, 6), (beyond, 7)] {
            let input = || format!("{d:?}, 20 CIFs");
            let mut rust = theirs::Receiver::new(&d).ok_or(format!("{d:?}: refused by the Rust"))?;
            let frames = (0..20 * 18).filter(|_| rust.feed(&random.soft(3_072)).0.is_some()).count();
            same(["document 01", "the Rust"], 0, frames, input)?;
            tally.listed += 1;
            let mut ours = ours::Receiver::new(&Stores::new(needs(&d)));
            tally.model(number, ours.set_up(&d, &needs(&d)), input)?;
        }
    }
    Ok(())
}
