//! Three symbols to FIBs: the FIBs and the log's metric, sum and percentage are held against the
//! Rust, every lent byte against the model.

use super::Run;
use crate::model::fic;
use crate::random::Random;
use crate::samples::received;
use crate::sender;
use crate::stores::{FicPlaces, FicStores};
use crate::tally::{Outcome, Tally, same, short};
use crate::theirs::Logged;
use crate::{ours, theirs};
use tracing::Value;

/// Lengths about a block of 2,304, a symbol of 3,072, and the parts of the one in the other.
const LENGTHS: [usize; 14] = [0, 1, 2, 767, 768, 769, 1_535, 1_536, 1_537, 2_303, 2_304, 2_305, 3_071, 3_072];

pub fn compare(run: &Run, tally: &mut Tally) -> Outcome {
    let mut random = run.random("process_fic");
    for a in LENGTHS {
        for b in LENGTHS {
            for c in LENGTHS {
                one([a, b, c], &mut random, tally)?;
            }
        }
    }
    // Every length of all three about a whole number of blocks, and of each about a block and a symbol.
    for near in 0..run.times(40, 400) {
        for blocks in 1..=4 {
            let total = 2_304 * blocks + near - run.times(40, 400) / 2;
            one(cut(total.min(9_216), &mut random), &mut random, tally)?;
        }
    }
    for near in 0..run.times(10, 100) {
        for end in [2_304 + run.times(5, 50), 3_072] {
            for place in 0..3 {
                let mut lengths = [(); 3].map(|()| *random.pick(&LENGTHS));
                lengths[place] = end - near;
                one(lengths, &mut random, tally)?;
            }
        }
    }
    for _ in 0..run.times(1_080, 20_000) {
        one([3_072; 3], &mut random, tally)?;
        let uneven = [(); 3].map(|()| random.below(3_073));
        one(uneven, &mut random, tally)?;
    }
    refusals(run, &mut random, tally)
}

/// Three lengths of at most 3,072 whose sum is `total`.
fn cut(total: usize, random: &mut Random) -> [usize; 3] {
    let least = |left: usize, symbols: usize| left.saturating_sub(3_072 * symbols);
    let mut take = |left: usize, symbols: usize| {
        let low = least(left, symbols);
        low + random.below(left.min(3_072) - low + 1)
    };
    let a = take(total, 2);
    let b = take(total - a, 1);
    [a, b, total - a - b]
}

/// Values whose blocks begin where the receiver begins them, of any kind, cut into three symbols.
pub fn symbols(lengths: [usize; 3], random: &mut Random) -> [Vec<i8>; 3] {
    let total: usize = lengths.iter().sum();
    let mut joined: Vec<i8> = (0..total / 2_304).flat_map(|_| block(random)).collect();
    joined.extend(random.soft(total % 2_304));
    let (first, rest) = joined.split_at(lengths[0]);
    let (second, third) = rest.split_at(lengths[1]);
    [first, second, third].map(<[i8]>::to_vec)
}

/// 2,304 values of one block.
pub fn block(random: &mut Random) -> Vec<i8> {
    match random.below(12) {
        0 => random.soft(2_304),
        1 => (0..2_304).map(|_| random.from_to(-1, 1) as i8).collect(),
        2 => vec![*random.pick(&[0, 0, -128, 127]); 2_304],
        3 => (0..2_304).map(|_| *random.pick(&[-128, 127])).collect(),
        4 | 5 => sent(random).iter().map(|bit| if *bit == 1 { 127 } else { -128 }).collect(),
        6 | 7 => sent(random).iter().map(|bit| sender::clean(*bit, random)).collect(),
        8 | 9 => received(&sent(random), 4, 10, random),
        10 => received(&sent(random), 9, 20, random),
        _ => received(&sent(random), 25, 0, random),
    }
}

/// Three FIBs, now and then one with a wrong bit behind its CRC.
fn sent(random: &mut Random) -> Vec<u8> {
    let fibs = [(); 3].map(|()| {
        let mut fib = sender::fib(&random.bytes(30));
        if random.one_in(4) {
            fib[random.below(32)] ^= 1 << random.below(8);
        }
        fib
    });
    sender::fic_block(&fibs)
}

/// Exactly the needed lengths most times, else some places to spare.
fn places(blocks: usize, random: &mut Random) -> FicPlaces {
    let needs = [3_096, 774, 774, 96 * blocks, 5, 8, 4];
    if random.one_in(2) { needs } else { needs.map(|need| need + random.below(4) * random.below(20)) }
}

fn one(lengths: [usize; 3], random: &mut Random, tally: &mut Tally) -> Outcome {
    let symbols = symbols(lengths, random);
    let symbols = [&symbols[0][..], &symbols[1][..], &symbols[2][..]];
    let blocks = lengths.iter().sum::<usize>() / 2_304;
    let before = FicStores::new(places(blocks, random));
    held(symbols, &before, tally)
}

/// An input that is decoded, held against the Rust and the model.
pub fn held(symbols: [&[i8]; 3], before: &FicStores, tally: &mut Tally) -> Outcome {
    let input = || format!("symbols of {:?} values: {}", symbols.map(<[i8]>::len), short(&symbols));
    let (number, model) = fic::process(symbols, before);
    let (fibs, lines) = theirs::process_fic(symbols);

    let passed = model.counts[0] as usize;
    same(["the model", "the Rust"], &model.fibs[..32 * passed], &fibs.concat()[..], input)?;
    // From the lengths: a log without lines is not to agree with no records.
    let blocks = symbols.iter().map(|symbol| symbol.len()).sum::<usize>() / 2_304;
    same(["whole blocks", "lines in the Rust's log"], blocks, lines.len(), input)?;
    let records = (0..blocks).map(|k| Logged {
        metric: model.metrics[k],
        sum: model.metrics[4 + k],
        percent: Value::Text(format!("{:.1}", model.percents[k].0)),
    });
    same(["the model", "the Rust's log"], records.collect::<Vec<_>>(), lines, input)?;

    tally.compared += 1;
    let (our_number, ours) = ours::process_fic(symbols, before).map_err(|why| format!("{}\n  {why}", input()))?;
    same(["the model", "ours"], number, our_number, input)?;
    model.alike(&ours).map_err(|why| format!("{}\n  {why}", input()))
}

/// 11 before 8; nothing is written. The Rust knows neither.
fn refusals(run: &Run, random: &mut Random, tally: &mut Tally) -> Outcome {
    let mut refused = |lengths: [usize; 3], places: FicPlaces, number: u8, random: &mut Random| {
        let symbols = lengths.map(|length| random.soft(length));
        let symbols = [&symbols[0][..], &symbols[1][..], &symbols[2][..]];
        let before = FicStores::new(places);
        let input = || format!("symbols of {lengths:?} values, places {places:?}");
        let told = fic::process(symbols, &before).0;
        same(["document 01", "the model"], number, told, input)?;
        let (ours, after) = ours::process_fic(symbols, &before).map_err(|why| format!("{}\n  {why}", input()))?;
        tally.listed += u64::from(number == 11);
        tally.model(number, ours, input)?;
        before.alike(&after).map_err(|why| format!("{}, refused with {number}\n  {why}", input()))
    };
    let full: FicPlaces = [9_216, 3_000, 3_000, 3_000, 5, 8, 4];
    for long in [3_073, 3_074, 3_584, 4_608, 9_216, 65_536, 65_537, 68_608] {
        for place in 0..3 {
            for others in [0, 2_304, 3_072] {
                let mut lengths = [others; 3];
                lengths[place] = long;
                refused(lengths, full, 11, random)?;
                refused(lengths, [0; 7], 11, random)?;
                let mut places = full;
                places[random.below(7)] = 0;
                refused(lengths, places, 11, random)?;
            }
        }
    }
    for _ in 0..run.times(200, 2_000) {
        let lengths = [(); 3].map(|()| *random.pick(&LENGTHS));
        let blocks = lengths.iter().sum::<usize>() / 2_304;
        let needs = [3_096, 774, 774, 96 * blocks, 5, 8, 4];
        for place in (0..7).filter(|place| needs[*place] > 0) {
            for count in [needs[place] - 1, random.below(needs[place]), 0] {
                let mut places = needs;
                places[place] = count;
                refused(lengths, places, 8, random)?;
            }
        }
    }
    Ok(())
}
