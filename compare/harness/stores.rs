//! Memory lent to the longer calls, as plain vectors: the model works on it, and what ours leaves is
//! held against it place by place.

use crate::description::Description;
use crate::tally::Outcome;
use std::fmt;

/// A percentage, told from another by its bits: 0.0 is not -0.0.
#[derive(Clone, Copy)]
#[repr(transparent)]
pub struct Percent(pub f64);

impl PartialEq for Percent {
    fn eq(&self, other: &Self) -> bool {
        self.0.to_bits() == other.0.to_bits()
    }
}

impl fmt::Debug for Percent {
    fn fmt(&self, f: &mut fmt::Formatter) -> fmt::Result {
        write!(f, "{:?}", self.0)
    }
}

/// Where a buffer of ours first differs from the model's.
pub fn alike<T: PartialEq + fmt::Debug>(name: &str, model: &[T], ours: &[T]) -> Outcome {
    if model == ours {
        return Ok(());
    }
    let place = model.iter().zip(ours).position(|(m, o)| m != o).ok_or(format!("{name}: other lengths"))?;
    let (model, ours) = (&model[place], &ours[place]);
    Err(format!("{name}[{place}] after the call: the model {model:?}, ours {ours:?}"))
}

/// What `process_fic` is lent.
#[derive(Clone)]
pub struct FicStores {
    pub depunctured: Vec<i8>,
    pub words: Vec<u64>,
    pub bits: Vec<u8>,
    pub fibs: Vec<u8>,
    pub counts: Vec<u64>,
    pub metrics: Vec<i32>,
    pub percents: Vec<Percent>,
}

/// Places of depunctured, words, bits, fibs, counts, metrics and percents.
pub type FicPlaces = [usize; 7];

impl FicStores {
    /// Filled with what no answer has.
    pub fn new(places: FicPlaces) -> Self {
        Self {
            depunctured: pattern(places[0]),
            words: vec![!0 / 3; places[1]],
            bits: vec![7; places[2]],
            fibs: (0..places[3]).map(|i| (i % 251) as u8 + 1).collect(),
            counts: vec![77; places[4]],
            metrics: vec![i32::MIN; places[5]],
            percents: vec![Percent(-777.5); places[6]],
        }
    }

    pub fn alike(&self, ours: &Self) -> Outcome {
        alike("counts", &self.counts, &ours.counts)?;
        alike("metrics", &self.metrics, &ours.metrics)?;
        alike("percents", &self.percents, &ours.percents)?;
        alike("fibs", &self.fibs, &ours.fibs)?;
        alike("depunctured", &self.depunctured, &ours.depunctured)?;
        alike("words", &self.words, &ours.words)?;
        alike("bits", &self.bits, &ours.bits)
    }
}

/// What a sub-channel's calls are lent.
#[derive(Clone)]
pub struct Stores {
    pub state: Vec<u64>,
    pub cif: Vec<i8>,
    pub ring: Vec<i8>,
    pub deinterleaved: Vec<i8>,
    pub depunctured: Vec<i8>,
    pub words: Vec<u64>,
    pub bits: Vec<u8>,
    pub frame: Vec<u8>,
    pub length: Vec<u64>,
    pub percent: Vec<Percent>,
}

/// Places of each in that order; a call may be lent fewer than there are.
pub type Places = [usize; 10];

pub const BUFFERS: [&str; 10] =
    ["state", "cif", "ring", "deinterleaved", "depunctured", "words", "bits", "frame", "length", "percent"];

pub const STATE: usize = 0;
pub const RING: usize = 2;
pub const LENGTH: usize = 8;
pub const PERCENT: usize = 9;

/// What feeding needs: document 01, "Room" (its word for needed lengths), and the places that the header names.
pub fn needs(d: &Description) -> Places {
    let (size, rate) = (usize::from(d.sub_size), usize::from(d.bitrate));
    let steps = 24 * rate + 6;
    [11, 55_296, 1_024 * size, 64 * size, 96 * rate + 24, steps, steps, 3 * rate, 1, 1]
}

impl Stores {
    /// Filled with what no answer has, or what would show if it were taken for one.
    pub fn new(places: Places) -> Self {
        Self {
            state: (0..places[0] as u64).map(|i| !i).collect(),
            cif: pattern(places[1]),
            ring: pattern(places[2]),
            deinterleaved: pattern(places[3]),
            depunctured: pattern(places[4]),
            words: vec![!0 / 3; places[5]],
            bits: vec![7; places[6]],
            frame: (0..places[7]).map(|i| (i % 251) as u8 + 1).collect(),
            length: vec![77; places[8]],
            percent: vec![Percent(-777.5); places[9]],
        }
    }

    pub fn places(&self) -> Places {
        let values = [self.cif.len(), self.ring.len(), self.deinterleaved.len(), self.depunctured.len()];
        let [cif, ring, deinterleaved, depunctured] = values;
        let (words, bits, frame) = (self.words.len(), self.bits.len(), self.frame.len());
        let (length, percent) = (self.length.len(), self.percent.len());
        [self.state.len(), cif, ring, deinterleaved, depunctured, words, bits, frame, length, percent]
    }
}

/// Never 0, so that a place that is not filled shows.
fn pattern(n: usize) -> Vec<i8> {
    (0..n).map(|i| (i % 127) as i8 - 127).collect()
}
