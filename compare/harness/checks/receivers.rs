//! One sub-channel received three times over: by the Rust, by ours and by the model, fed the same.

use crate::description::Description;
use crate::model::quality;
use crate::model::receiver::{self, FRAMES};
use crate::random::Random;
use crate::stores::{Places, RING, STATE, Stores, needs};
use crate::tally::{Outcome, same};
use crate::{ours, theirs};

pub struct Receivers {
    pub d: Description,
    places: Places,
    rust: theirs::Receiver,
    ours: ours::Receiver,
    pub model: Stores,
}

/// Exactly what feeding needs most times, else some places more.
pub fn places(d: &Description, random: &mut Random) -> Places {
    let needs = needs(d);
    if random.one_in(2) { needs } else { needs.map(|need| need + random.below(3) * random.below(30)) }
}

impl Receivers {
    /// A description that is accepted, set up in memory that held something else.
    pub fn set_up(d: &Description, random: &mut Random) -> Result<Self, String> {
        let places = places(d, random);
        let model = Stores::new(places);
        let ours = ours::Receiver::new(&model);
        let rust = theirs::Receiver::new(d).ok_or("refused by the Rust")?;
        let mut receivers = Self { d: *d, places, rust, ours, model };
        receivers.again(d)?;
        Ok(receivers)
    }

    /// Set up once more in the same memory, for a description that needs no more of it.
    pub fn again(&mut self, d: &Description) -> Outcome {
        self.d = *d;
        self.rust = theirs::Receiver::new(d).ok_or("refused by the Rust")?;
        let number = receiver::set_up(d, &mut self.model, &self.places);
        same(["the model", "ours"], number, self.ours.set_up(d, &self.places), || "set-up".to_string())?;
        self.ours.alike(&self.model)
    }

    pub fn reset(&mut self) -> Outcome {
        self.rust.reset();
        let number = receiver::reset(&mut self.model, &self.places);
        same(["the model", "ours"], number, self.ours.reset(&self.places), || "reset".to_string())?;
        self.ours.alike(&self.model)
    }

    /// A symbol to all three: the frame, if this gives one; every lent byte is seen to.
    pub fn feed(&mut self, soft: &[i8]) -> Result<Option<Vec<u8>>, String> {
        let input = || format!("a symbol of {} values", soft.len());
        let number = receiver::feed(&mut self.model, soft, &self.places);
        same(["the model", "ours"], number, self.ours.feed(soft, &self.places)?, input)?;
        self.ours.alike(&self.model)?;

        let length = if number == 0 { self.model.length[0] as usize } else { 0 };
        let frame = (length > 0).then(|| self.model.frame[..length].to_vec());
        let frames = self.model.state[FRAMES];
        let (rust, line) = self.rust.feed(soft);
        same(["the Rust", "ours"], &rust, &frame, input)?;
        same(["the Rust's frames_decoded", "ours"], self.rust.frames_decoded(), frames, input)?;
        // Of the first three frames the Rust logs the quality.
        let depunctured = &self.model.depunctured[..needs(&self.d)[4]];
        let quality = || (quality::sum(depunctured), self.model.percent[0]);
        let expected = (length > 0 && frames <= 3).then(quality);
        same(["the Rust's log", "ours"], line.map(|line| (line.sum, line.percent())), expected, input)?;
        Ok(frame)
    }

    /// A call of ours with other lengths that must be refused and change nothing.
    pub fn refused(&mut self, soft: &[i8], places: &Places, number: u8) -> Outcome {
        let input = || format!("a symbol of {} values, places {places:?}", soft.len());
        let told = receiver::feed(&mut self.model, soft, places);
        same(["document 01", "the model"], number, told, input)?;
        same(["the model", "ours"], number, self.ours.feed(soft, places)?, input)?;
        self.ours.alike(&self.model)
    }

    /// Feeding with another state, to be refused with `number`. The state is then as it was.
    pub fn refused_state(&mut self, state: &[u64; 11], soft: &[i8], places: &Places, number: u8) -> Outcome {
        let good = self.model.state.clone();
        self.put(state, &[]);
        self.refused(soft, places, number).map_err(|why| format!("state {state:?}: {why}"))?;
        self.model.state = good;
        self.ours.refill(&self.model);
        Ok(())
    }

    /// Other contents in all that is not handed on from call to call.
    pub fn disturb(&mut self, random: &mut Random) {
        let fresh = Stores::new(self.model.places());
        let (state, cif, ring) = (self.model.state.clone(), self.model.cif.clone(), self.model.ring.clone());
        self.model = Stores { state, cif, ring, ..fresh };
        let word = random.next();
        self.model.deinterleaved.fill(word as i8);
        self.model.depunctured.fill((word >> 8) as i8);
        self.model.words.fill(word);
        self.model.bits.fill((word >> 16) as u8);
        self.ours.refill(&self.model);
    }

    /// Another state and ring, for what no run since set-up reaches.
    pub fn put(&mut self, state: &[u64; 11], ring: &[i8]) {
        self.model.state[..11].copy_from_slice(state);
        self.model.ring[..ring.len()].copy_from_slice(ring);
        self.ours.refill(&self.model);
    }

    /// One call of ours against the model alone.
    pub fn feed_without_rust(&mut self, soft: &[i8]) -> Outcome {
        let number = receiver::feed(&mut self.model, soft, &self.places);
        let input = || format!("a symbol of {} values", soft.len());
        same(["the model", "ours"], number, self.ours.feed(soft, &self.places)?, input)?;
        self.ours.alike(&self.model)
    }

    pub fn reset_without_rust(&mut self, places: &Places) -> Result<u8, String> {
        let number = receiver::reset(&mut self.model, places);
        let input = || format!("reset, {} places of state and {} of ring lent", places[STATE], places[RING]);
        same(["the model", "ours"], number, self.ours.reset(places), input)?;
        self.ours.alike(&self.model)?;
        Ok(number)
    }

    pub fn places(&self) -> Places {
        self.places
    }
}
