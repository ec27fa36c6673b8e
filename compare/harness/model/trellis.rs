//! Document 01's decoders step by step, over scores that are never lowered: what the lent words
//! hold, which the Rust has no counterpart to, and what it answers.

const MASKS: [u32; 4] = [0o155, 0o117, 0o123, 0o155];

/// By register and output: +1 where the output is 1, -1 where it is 0.
const SIGNS: [[i64; 4]; 128] = signs();

const fn signs() -> [[i64; 4]; 128] {
    let mut signs = [[-1; 4]; 128];
    let mut i = 0;
    while i < 512 {
        let (register, output) = (i / 4, i % 4);
        if (register as u32 & MASKS[output]).count_ones() % 2 == 1 {
            signs[register][output] = 1;
        }
        i += 1;
    }
    signs
}

/// What each of the 128 registers scores in one step.
pub fn step_scores(four: &[i8]) -> [i64; 128] {
    let score = |signs: &[i64; 4]| four.iter().zip(signs).map(|(&value, sign)| i64::from(value) * sign).sum();
    std::array::from_fn(|register| score(&SIGNS[register]))
}

pub struct Trellis {
    /// Bit s of word t: state s took the higher predecessor at step t.
    pub words: Vec<u64>,
    /// The best score by end state.
    pub scores: [i64; 64],
    /// All that was subtracted.
    pub subtracted: i64,
}

impl Trellis {
    pub fn of(soft: &[i8]) -> Self {
        let mut scores = [-63; 64];
        scores[0] = 0;
        let (mut words, mut subtracted) = (Vec::new(), 0);
        for four in soft.chunks_exact(4) {
            let by_register = step_scores(four);
            let (mut next, mut word) = ([0; 64], 0);
            for (state, score) in next.iter_mut().enumerate() {
                // Register 2s+b without its oldest bit is the state reached; the oldest bit is all
                // that its two predecessors differ in.
                let (low, high) = (state / 2, state / 2 + 32);
                let from_low = scores[low] + by_register[state];
                let from_high = scores[high] + by_register[state + 64];
                *score = from_low.max(from_high);
                word |= u64::from(from_high > from_low) << state;
            }
            scores = next;
            words.push(word);
            let best = *scores.iter().max().unwrap();
            if best - subtracted > 100_000 {
                subtracted = best;
            }
        }
        Self { words, scores, subtracted }
    }

    /// Bits, metric and start state of the best path to `end`.
    pub fn to(&self, end: usize) -> (Vec<u8>, i64, usize) {
        let mut state = end;
        let mut bits = vec![0; self.words.len()];
        for (bit, word) in bits.iter_mut().zip(&self.words).rev() {
            *bit = (state % 2) as u8;
            state = state / 2 + if word >> state & 1 == 1 { 32 } else { 0 };
        }
        let metric = if bits.is_empty() { 0 } else { self.scores[end] - self.subtracted };
        (bits, metric, state)
    }

    /// The lowest state with the best score.
    pub fn best_end(&self) -> usize {
        let best = self.scores.iter().max().unwrap();
        self.scores.iter().position(|s| s == best).unwrap()
    }
}
