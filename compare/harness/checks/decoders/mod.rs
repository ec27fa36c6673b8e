//! The two decoders. Bits and metric are held against the Rust; the words, which the Rust does not
//! have, against the model; short inputs against a brute force over paths too.

mod inputs;

use super::Run;
use crate::model::paths::Best;
use crate::model::trellis::Trellis;
use crate::ours::{self, Decoder, Decoding};
use crate::tally::{Outcome, Tally, same, short};
use crate::theirs;

/// What sets one decoder apart from the other.
pub struct End {
    name: &'static str,
    ours: Decoder,
    rust: fn(&[i8]) -> (Vec<u8>, i32),
    /// The end state of the best permitted path.
    state: fn(&Trellis) -> usize,
    by_paths: fn(&Best) -> (Vec<u8>, i64),
}

pub const STATE0: End = End {
    name: "viterbi_decode_state0",
    ours: ours::STATE0,
    rust: theirs::viterbi_decode_state0,
    state: |_| 0,
    by_paths: Best::to_state0,
};

pub const FREE: End = End {
    name: "viterbi_decode_with_metric",
    ours: ours::WITH_METRIC,
    rust: theirs::viterbi_decode_with_metric,
    state: Trellis::best_end,
    by_paths: Best::to_any,
};

pub fn state0(run: &Run, tally: &mut Tally) -> Outcome {
    inputs::cases(&STATE0, tally)?;
    all(&STATE0, run, tally)
}

pub fn with_metric(run: &Run, tally: &mut Tally) -> Outcome {
    inputs::cases(&FREE, tally)?;
    all(&FREE, run, tally)
}

fn all(end: &End, run: &Run, tally: &mut Tally) -> Outcome {
    inputs::subtractions(end, tally)?;
    inputs::three_steps(end, run, tally)?;
    inputs::nine_steps(end, run, tally)?;
    inputs::of_all_kinds(end, run, tally)?;
    inputs::long(end, run, tally)?;
    inputs::longest(end, run, tally)?;
    inputs::refusals(end, run, tally)
}

/// Places beyond the need, for words, bits and metrics.
pub struct Spare(pub usize, pub usize, pub usize);

/// What the three buffers hold before a call.
fn before(words: usize, bits: usize, metrics: usize) -> Decoding {
    Decoding { number: 255, words: vec![!0 / 3; words], bits: vec![7; bits], metric: vec![-1; metrics] }
}

/// An input that is decoded, held against the Rust and the model.
fn one(end: &End, soft: &[i8], spare: Spare, tally: &mut Tally) -> Outcome {
    let input = || format!("{} values {}", soft.len(), short(&soft));
    let steps = soft.len() / 4;
    let trellis = Trellis::of(soft);
    let (bits, metric) = (end.rust)(soft);
    let (model_bits, model_metric, _) = trellis.to((end.state)(&trellis));
    let model = (model_bits, model_metric as i32);
    same(["the model", "the Rust"], &model, &(bits.clone(), metric), input)?;

    let before = before(steps + spare.0, steps + spare.1, 1 + spare.2);
    let mut after = before.clone();
    after.number = 0;
    after.words[..steps].copy_from_slice(&trellis.words);
    after.bits[..steps].copy_from_slice(&bits);
    after.metric[0] = metric;
    tally.rust(Ok(after), ours::decode(end.ours, soft, &before), input)
}

/// The same for a short input, with every path tried beside it.
fn one_by_paths(end: &End, soft: &[i8], tally: &mut Tally) -> Outcome {
    let input = || format!("{} values {soft:?}", soft.len());
    let best = Best::of(soft);
    let trellis = Trellis::of(soft);
    let (bits, metric, _) = trellis.to((end.state)(&trellis));
    let (by_paths, score) = (end.by_paths)(&best);
    same(["every path", "the model"], (best.words(), by_paths, score), (trellis.words, bits, metric), input)?;
    one(end, soft, Spare(0, 0, 0), tally)
}
