//! What the decoders are fed.

use super::{End, Run, Spare, before, one, one_by_paths};
use crate::model::trellis::Trellis;
use crate::ours;
use crate::random::Random;
use crate::samples::{mother_code, received};
use crate::tally::{Outcome, Tally, same};

const NONE: Spare = Spare(0, 0, 0);

/// Document 01's cases 1 to 7: values, bits, metric, and the start state where 01 names it.
pub fn cases(end: &End, tally: &mut Tally) -> Outcome {
    let case = |soft: &[i8], bits: &[u8], metric: i32, start: Option<usize>, tally: &mut Tally| {
        let trellis = Trellis::of(soft);
        let (_, _, from) = trellis.to((end.state)(&trellis));
        let rust = (end.rust)(soft);
        let input = || format!("{soft:?}");
        same(
            ["document 01", "the Rust and the model"],
            (bits.to_vec(), metric, start.unwrap_or(from)),
            (rust.0, rust.1, from),
            input,
        )?;
        one(end, soft, NONE, tally)
    };
    case(&[], &[], 0, None, tally)?;
    case(&[-128; 4], &[0], 512, None, tally)?;
    if end.name == super::STATE0.name {
        case(&[10; 4], &[0], -23, Some(32), tally)?;
        case(&[8, 8, 8, 7], &[0], -31, Some(0), tally)?;
        case(&[8; 4], &[0], -31, Some(32), tally)
    } else {
        case(&[10; 4], &[1], 40, None, tally)?;
        case(&[0; 4], &[0], 0, None, tally)
    }
}

/// Around the subtraction: exactly 100,000 is not above it.
pub fn subtractions(end: &End, tally: &mut Tally) -> Outcome {
    let full = |n: usize, last: &[i8]| [&vec![-128; n][..], last].concat();
    let named = [
        (full(780, &[]), 99_840),
        (full(784, &[]), 0),
        (full(788, &[]), 512),
        (full(780, &[-40; 4]), 100_000),
        (full(780, &[-41; 4]), 0),
    ];
    for (soft, metric) in named {
        let rust = (end.rust)(&soft).1;
        same(["document 01", "the Rust"], metric, rust, || format!("{} values of -128", soft.len()))?;
        one(end, &soft, NONE, tally)?;
    }
    for last in -128..=127 {
        one(end, &full(780, &[last; 4]), NONE, tally)?;
        one(end, &full(779, &[last]), NONE, tally)?;
    }
    for length in 776..=1_600 {
        one(end, &full(length, &[]), NONE, tally)?;
    }
    Ok(())
}

/// Every input over -1, 0 and 1 of up to three steps, and some about the size of the penalty.
pub fn three_steps(end: &End, run: &Run, tally: &mut Tally) -> Outcome {
    for steps in 1..=3 {
        // A quick run takes every eleventh of the longest.
        let stride = if steps == 3 { run.times(11, 1) } else { 1 };
        for code in (0..3usize.pow(4 * steps)).step_by(stride) {
            one_by_paths(end, &small(code, 4 * steps as usize, 1), tally)?;
        }
    }
    let mut random = run.random(end.name);
    for _ in 0..run.times(2_000, 50_000) {
        let steps = 1 + random.below(4);
        let soft: Vec<i8> = (0..4 * steps).map(|_| random.from_to(-24, 24) as i8).collect();
        one_by_paths(end, &soft, tally)?;
    }
    Ok(())
}

/// Seven to nine steps, where a tie between predecessors first shows in the bits.
pub fn nine_steps(end: &End, run: &Run, tally: &mut Tally) -> Outcome {
    let mut random = run.random(end.name);
    for steps in 7..=9 {
        for code in (0..3usize.pow(steps)).step_by(run.times(5, 1)) {
            one_by_paths(end, &small(code, steps as usize, 4), tally)?;
        }
        let mut soft = vec![0; 4 * steps as usize];
        few_nonzero(end, &mut soft, 0, 4, &mut Stride { every: run.times(53, 1), at: 0 }, tally)?;
        for _ in 0..run.times(200, 5_000) {
            let most = *random.pick(&[1, 2, 3, 20]);
            let soft: Vec<i8> = (0..4 * steps).map(|_| random.from_to(-most, most) as i8).collect();
            one_by_paths(end, &soft, tally)?;
        }
    }
    Ok(())
}

/// The digits of `code` to base three as -1, 0 and 1, each `repeat` times over.
fn small(code: usize, digits: usize, repeat: usize) -> Vec<i8> {
    let digit = |i: usize| (code / 3usize.pow((i / repeat) as u32) % 3) as i8 - 1;
    (0..digits * repeat).map(digit).collect()
}

/// Takes every so-many-th of a walk.
struct Stride {
    every: usize,
    at: usize,
}

impl Stride {
    fn takes(&mut self) -> bool {
        self.at += 1;
        self.at % self.every == 0
    }
}

/// Every way to set up to `left` values from `first` on to -1 or 1.
fn few_nonzero(
    end: &End,
    soft: &mut Vec<i8>,
    first: usize,
    left: usize,
    stride: &mut Stride,
    tally: &mut Tally,
) -> Outcome {
    if stride.takes() {
        one(end, soft, NONE, tally)?;
    }
    if left == 0 {
        return Ok(());
    }
    for place in first..soft.len() {
        for value in [-1, 1] {
            soft[place] = value;
            few_nonzero(end, soft, place + 1, left - 1, stride, tally)?;
        }
        soft[place] = 0;
    }
    Ok(())
}

/// Up to 4,000 values of every kind, each length with one to three values left over too.
pub fn of_all_kinds(end: &End, run: &Run, tally: &mut Tally) -> Outcome {
    let mut random = run.random(end.name);
    for length in 0..=120 {
        for kind in 0..KINDS {
            one(end, &soft_of(kind, length, &mut random), spare(&mut random), tally)?;
        }
    }
    for _ in 0..run.times(100, 3_000) {
        let (kind, length) = (random.below(KINDS), random.below(998) * 4);
        for over in 0..4 {
            one(end, &soft_of(kind, length + over, &mut random), spare(&mut random), tally)?;
        }
    }
    Ok(())
}

fn spare(random: &mut Random) -> Spare {
    if random.one_in(2) { NONE } else { Spare(random.below(5), random.below(5), random.below(3)) }
}

const KINDS: usize = 9;

fn soft_of(kind: usize, length: usize, random: &mut Random) -> Vec<i8> {
    let mut word = || {
        let bits = random.bits(length / 4);
        let mut word = mother_code(&bits);
        word.resize(length.max(word.len()), 1);
        word.truncate(length);
        word
    };
    match kind {
        0 => random.soft(length),
        1 => (0..length).map(|_| random.from_to(-1, 1) as i8).collect(),
        2 => (0..length).map(|_| random.from_to(-3, 3) as i8).collect(),
        3 => vec![0; length],
        4 => (0..length).map(|_| if random.one_in(12) { random.byte() as i8 } else { 0 }).collect(),
        5 => (0..length).map(|_| *random.pick(&[-128, 127])).collect(),
        6 => word().iter().map(|bit| if *bit == 1 { 127 } else { -128 }).collect(),
        7 => received(&word(), 5, 25, random),
        _ => received(&word(), 20, 0, random),
    }
}

/// Every kind at lengths from where `of_all_kinds` ends up to the longest, other ones with every seed.
pub fn long(end: &End, run: &Run, tally: &mut Tally) -> Outcome {
    let mut random = run.random(&format!("{} long", end.name));
    for kind in 0..KINDS {
        for _ in 0..run.times(2, 10) {
            let length = 3_992 + random.below(262_148 - 3_992);
            one(end, &soft_of(kind, length, &mut random), spare(&mut random), tally)?;
        }
    }
    Ok(())
}

/// 65,536 steps are decoded.
pub fn longest(end: &End, run: &Run, tally: &mut Tally) -> Outcome {
    let mut random = run.random(&format!("{} longest", end.name));
    for length in [262_144, 262_147] {
        one(end, &soft_of(7, length, &mut random), Spare(1, 1, 1), tally)?;
    }
    one(end, &[-128; 262_144], NONE, tally)
}

/// 11 before 8; nothing is written. The Rust knows neither and decodes.
pub fn refusals(end: &End, run: &Run, tally: &mut Tally) -> Outcome {
    let mut random = run.random(end.name);
    let mut refused = |length: usize, places: [usize; 3], number: u8| {
        let soft = random.soft(length);
        let before = before(places[0], places[1], places[2]);
        let mut after = before.clone();
        after.number = number;
        tally.listed += u64::from(number == 11);
        tally.model(Ok(after), ours::decode(end.ours, &soft, &before), || format!("{length} values, places {places:?}"))
    };
    for length in [262_148, 262_149, 262_151, 262_152, 300_000] {
        refused(length, [length / 4; 3], 11)?;
        refused(length, [0; 3], 11)?;
        refused(length, [0, length / 4, 1], 11)?;
    }
    for steps in (0..=40).chain([774, 65_536]) {
        for over in 0..4 {
            let length = 4 * steps + over;
            refused(length, [steps, steps, 0], 8)?;
            refused(length, [steps + 3, steps + 3, 0], 8)?;
            if steps > 0 {
                refused(length, [steps - 1, steps, 1], 8)?;
                refused(length, [steps, steps - 1, 1], 8)?;
                refused(length, [0, steps + 9, 2], 8)?;
                refused(length, [steps + 9, 0, 2], 8)?;
            }
        }
    }
    Ok(())
}
