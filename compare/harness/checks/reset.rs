//! Reset: at every symbol of a CIF against the Rust, which shows it by what follows; from any state,
//! with its refusals and every lent byte, against the model.

use super::Run;
use super::feed_symbol::{any_good_state, bad_states};
use super::receivers::Receivers;
use crate::air::{Air, KINDS, symbol};
use crate::description::Description;
use crate::random::Random;
use crate::samples::{anywhere_in_cif, small_shapes, spread};
use crate::stores::{RING, STATE, needs};
use crate::tally::{Outcome, Tally, same};

pub fn compare(run: &Run, tally: &mut Tally) -> Outcome {
    let mut random = run.random("reset");
    let small = small_shapes();
    for symbols in (0..18 * run.times(3, 20)).chain((0..run.times(4, 40)).map(|i| 17 * (18 + i))) {
        let d = anywhere_in_cif(random.pick(&small), &mut random);
        after(&d, symbols, &mut random, tally).map_err(|why| format!("{d:?}, reset after {symbols}: {why}"))?;
    }
    for d in spread(&mut random) {
        let d = anywhere_in_cif(&d, &mut random);
        from_any_state(&d, &mut random, tally).map_err(|why| format!("{d:?}: {why}"))?;
    }
    for _ in 0..run.times(500, 5_000) {
        let d = anywhere_in_cif(random.pick(&small), &mut random);
        from_any_state(&d, &mut random, tally).map_err(|why| format!("{d:?}: {why}"))?;
    }
    Ok(())
}

/// So many symbols, a reset, and eighteen CIFs: two frames.
fn after(d: &Description, symbols: usize, random: &mut Random, tally: &mut Tally) -> Outcome {
    let mut receivers = Receivers::set_up(d, random)?;
    let mut air = Air::new(d);
    for (part, count) in [symbols, 18 * 18].into_iter().enumerate() {
        let (mut cif, mut frames) = (Vec::new(), 0);
        for n in 0..count {
            if n % 18 == 0 {
                cif = air.cif(*random.pick(&KINDS), random).0;
            }
            frames += usize::from(receivers.feed(symbol(&cif, n % 18))?.is_some());
            tally.compared += 1;
        }
        let expected = (count / 18).saturating_sub(16);
        same(["document 01", "the Rust and ours"], expected, frames, || "frames".to_string())?;
        if part == 0 {
            receivers.reset()?;
        }
    }
    Ok(())
}

fn from_any_state(d: &Description, random: &mut Random, tally: &mut Tally) -> Outcome {
    let mut receivers = Receivers::set_up(d, random)?;
    let (needs, full) = (needs(d), receivers.places());
    let ring = random.soft(needs[RING]);
    let state = any_good_state(d, random);
    let bad = bad_states(&state, random);
    let mut call = |state: &[u64; 11], state_places: usize, ring_places: usize, number: u8| {
        receivers.put(state, &ring);
        let mut places = full;
        (places[STATE], places[RING]) = (state_places, ring_places);
        tally.modelled += 1;
        let told = receivers.reset_without_rust(&places).map_err(|why| format!("state {state:?}: {why}"))?;
        same(["document 01", "the model and ours"], number, told, || format!("reset of {state:?}"))
    };
    call(&state, 11, needs[RING], 0)?;
    call(&state, full[STATE], full[RING], 0)?;
    for ring_places in [needs[RING] - 1, 0] {
        call(&state, 11, ring_places, 8)?;
    }
    call(&state, 10, full[RING], 8)?;
    for _ in 0..4 {
        let bad = random.pick(&bad);
        call(bad, 11, full[RING], 10)?;
        call(bad, 11, 0, 10)?;
        call(bad, 10, full[RING], 8)?;
    }
    Ok(())
}
