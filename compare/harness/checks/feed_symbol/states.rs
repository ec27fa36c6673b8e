//! States that no run reaches, against the model alone, and what is refused.

use super::{Receivers, Run};
use crate::checks::judge::likely;
use crate::description::Description;
use crate::model::protection::judge;
use crate::random::Random;
use crate::samples::anywhere_in_cif;
use crate::stores::{BUFFERS, LENGTH, PERCENT, STATE, needs};
use crate::tally::{Outcome, Tally};

/// A state of eleven numbers that are all in range, reached or not.
pub fn any_good_state(d: &Description, random: &mut Random) -> [u64; 11] {
    let flag = if d.is_eep() { *random.pick(&[1, 2, 255, 256, 1 << 32, u64::MAX]) } else { 0 };
    let numbers = [d.start_addr, d.sub_size, d.bitrate, d.protection_level.into(), d.eep_option.into()].map(u64::from);
    let most = [17, 3, 15, 17];
    let mut any = |i: usize| if random.one_in(2) { most[i] } else { random.below(most[i] as usize + 1) as u64 };
    let counts = [any(0), any(1), any(2), any(3)];
    let other = random.next();
    let frames = *random.pick(&[0, 1, 2, 65_535, u64::from(u32::MAX), u64::MAX - 1, u64::MAX, other]);
    [&counts[..], &[frames], &numbers, &[flag]].concat().try_into().unwrap()
}

/// Any state in range, any ring: the answer and every lent byte as document 01 has them.
pub fn any_state(run: &Run, small: &[Description], tally: &mut Tally) -> Outcome {
    let mut random = run.random("feed_symbol any state");
    for _ in 0..run.times(2_000, 20_000) {
        let d = anywhere_in_cif(random.pick(small), &mut random);
        let state = any_good_state(&d, &mut random);
        let told = |why: String| format!("a symbol in state {state:?}: {why}");
        let mut receivers = Receivers::set_up(&d, &mut random).map_err(told)?;
        let ring = random.soft(needs(&d)[2]);
        receivers.put(&state, &ring);
        // To the end of a CIF, the second time from its beginning.
        for _ in 0..1 + random.below(20) {
            tally.modelled += 1;
            receivers.feed_without_rust(&random.soft(3_072)).map_err(told)?;
        }
    }
    Ok(())
}

/// The state with one thing wrong: a number too large, also where its low bits alone are not, or a
/// description that is turned away.
pub fn bad_states(good: &[u64], random: &mut Random) -> Vec<[u64; 11]> {
    let good: [u64; 11] = good[..11].try_into().unwrap();
    let mut states = Vec::new();
    let mut with = |place: usize, value: u64| {
        let mut state = good;
        state[place] = value;
        states.push(state);
    };
    for (place, most) in [(0, 17), (1, 3), (2, 15), (3, 17)] {
        for value in [most + 1, most + 2, 127, 128, 255, 256, 256 + good[place], (1 << 32) + good[place], u64::MAX] {
            with(place, value);
        }
    }
    for (place, bits) in [(5, 16), (6, 16), (7, 16), (8, 8), (9, 8)] {
        for over in [1 << bits, 3 << bits, 1 << 32, 1 << 63] {
            with(place, good[place] + over);
        }
    }
    for _ in 0..6 {
        let d = if random.one_in(3) { Description::any(random) } else { likely(random) };
        if judge(&d) != 0 {
            let mut state = good;
            for (place, value) in [(5, d.start_addr), (6, d.sub_size), (7, d.bitrate)] {
                state[place] = value.into();
            }
            (state[8], state[9], state[10]) = (d.protection_level.into(), d.eep_option.into(), d.is_eep().into());
            states.push(state);
        }
    }
    states
}

/// 8 for a short state, then 10, then 8, then 9; nothing is changed.
pub fn refusals(run: &Run, small: &[Description], tally: &mut Tally) -> Outcome {
    let mut random = run.random("feed_symbol refusals");
    for _ in 0..run.times(60, 600) {
        let d = anywhere_in_cif(random.pick(small), &mut random);
        let told = |why: String| format!("{d:?}: {why}");
        let mut receivers = Receivers::set_up(&d, &mut random).map_err(told)?;
        receivers.put(&any_good_state(&d, &mut random), &[]);
        let (needs, full) = (needs(&d), receivers.places());
        let symbols = [random.soft(3_072), random.soft(3_071), vec![]];
        for place in 0..BUFFERS.len() {
            for count in [needs[place] - 1, random.below(needs[place]), 0] {
                let mut places = needs;
                places[place] = count;
                for soft in &symbols {
                    tally.modelled += 1;
                    receivers.refused(soft, &places, 8).map_err(told)?;
                }
            }
        }
        for state in bad_states(&receivers.model.state, &mut random) {
            let soft = &symbols[random.below(3)];
            tally.modelled += 6;
            receivers.refused_state(&state, soft, &full, 10).map_err(told)?;
            // A bad state and nothing else lent, or no place for one part of the answer or for both: 10.
            let bare = std::array::from_fn(|i| if i == STATE { needs[i] } else { 0 });
            receivers.refused_state(&state, soft, &bare, 10).map_err(told)?;
            for places in [&[LENGTH][..], &[PERCENT], &[LENGTH, PERCENT]] {
                let mut none = full;
                places.iter().for_each(|place| none[*place] = 0);
                receivers.refused_state(&state, soft, &none, 10).map_err(told)?;
            }
            // No state can be read: 8.
            let mut short = full;
            short[STATE] = random.below(needs[STATE]);
            receivers.refused_state(&state, soft, &short, 8).map_err(told)?;
        }
        for length in [0, 1, 3_070, 3_071, random.below(3_072)] {
            tally.modelled += 1;
            receivers.refused(&random.soft(length), &full, 9).map_err(told)?;
        }
    }
    Ok(())
}
