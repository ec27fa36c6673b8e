//! Sub-channels received from set-up on, symbol by symbol: answers, frames and frames_decoded against
//! the Rust, every lent byte against the model.

mod states;

use super::Run;
use super::receivers::Receivers;
use crate::air::{Air, KINDS, Kind, symbol};
use crate::description::Description;
use crate::random::Random;
use crate::samples::{anywhere_in_cif, shapes, small_shapes, spread};
use crate::stores::{BUFFERS, needs};
use crate::tally::{Outcome, Tally};

pub use states::{any_good_state, bad_states};

pub fn compare(run: &Run, tally: &mut Tally) -> Outcome {
    let mut random = run.random("feed_symbol");
    let small = small_shapes();
    let wide = if run.quick { spread(&mut random) } else { shapes() };
    let rest = run.times(250, 2_200 - wide.len());
    let (mut runs, mut frames) = (0, 0);
    for i in 0..wide.len() + rest {
        let d = *wide.get(i).unwrap_or_else(|| random.pick(&small));
        frames += one_run(&d, &small, &mut random, tally)?;
        runs += 1;
    }
    tally.note = format!("{runs} runs of 20 CIFs or more, {frames} frames");
    states::any_state(run, &small, tally)?;
    states::refusals(run, &small, tally)
}

/// One sub-channel's run; gives how many frames came of it.
fn one_run(d: &Description, small: &[Description], random: &mut Random, tally: &mut Tally) -> Result<u64, String> {
    let d = anywhere_in_cif(d, random);
    let kind = if random.one_in(2) { Some(*random.pick(&KINDS)) } else { None };
    let receivers = Receivers::set_up(&d, random).map_err(|why| format!("set-up of {d:?}: {why}"))?;
    let mut life = Life { receivers, air: Air::new(&d), kind, frames: 0, random, tally };
    // Cut off in the middle of a CIF, as a rule, by a reset or another set-up.
    if life.random.one_in(3) {
        let symbols = life.random.below(22 * 18);
        life.symbols(symbols)?;
        let other = *life.random.pick(small);
        let fits = needs(&other).iter().zip(needs(&d)).all(|(other, this)| *other <= this);
        if fits && life.random.one_in(3) {
            let other = anywhere_in_cif(&other, life.random);
            life.receivers.again(&other).map_err(|why| format!("set-up of {other:?} after {d:?}: {why}"))?;
            life.air = Air::new(&other);
        } else {
            life.receivers.reset().map_err(|why| format!("reset of {d:?} after {symbols} symbols: {why}"))?;
        }
    }
    let cifs = 20 + life.random.below(4);
    life.symbols(18 * cifs)?;
    Ok(life.frames)
}

struct Life<'a> {
    receivers: Receivers,
    air: Air,
    /// How all CIFs arrive, or any way.
    kind: Option<Kind>,
    frames: u64,
    random: &'a mut Random,
    tally: &'a mut Tally,
}

impl Life<'_> {
    /// So many symbols of CIF after CIF; the last CIF may be cut short.
    fn symbols(&mut self, count: usize) -> Outcome {
        let mut cif = Vec::new();
        for n in 0..count {
            if n % 18 == 0 {
                let kind = self.kind.unwrap_or(*self.random.pick(&KINDS));
                cif = self.air.cif(kind, self.random).0;
            }
            self.next(symbol(&cif, n % 18))
                .map_err(|why| format!("{:?}, symbol {n} of {count} since set-up or reset: {why}", self.receivers.d))?;
        }
        Ok(())
    }

    /// A symbol, now and then with values behind it or something else before it.
    fn next(&mut self, soft: &[i8]) -> Outcome {
        match self.random.below(60) {
            0..=3 => {
                let some = self.random.below(3_072);
                let short = *self.random.pick(&[0, 1, 3_071, some]);
                self.feed(&soft[..short])?;
            }
            4 | 5 => self.refused(soft)?,
            6 => self.receivers.disturb(self.random),
            _ => (),
        }
        if self.random.one_in(8) {
            let surplus = *self.random.pick(&[1, 2, 50, 3_072]);
            let longer = [soft, &self.random.soft(surplus)].concat();
            return self.feed(&longer);
        }
        self.feed(soft)
    }

    fn feed(&mut self, soft: &[i8]) -> Outcome {
        self.tally.compared += 1;
        self.frames += u64::from(self.receivers.feed(soft)?.is_some());
        Ok(())
    }

    /// A call with a buffer that is too short, or a bad state, in the middle of a run.
    fn refused(&mut self, soft: &[i8]) -> Outcome {
        self.tally.modelled += 1;
        let needs = needs(&self.receivers.d);
        if self.random.one_in(2) {
            let states = bad_states(&self.receivers.model.state, self.random);
            return self.receivers.refused_state(self.random.pick(&states), soft, &needs, 10);
        }
        let place = self.random.below(BUFFERS.len());
        let mut places = needs;
        places[place] = self.random.below(needs[place]);
        self.receivers.refused(soft, &places, 8).map_err(|why| format!("too few places of {}: {why}", BUFFERS[place]))
    }
}
