//! Brute force: every path, by document 01's score and tie order. For short inputs only, and
//! short scores: nothing is subtracted.

use super::trellis::step_scores;

/// A start state and one bit per step, as one number: the start's six bits, then the steps'.
#[derive(Clone, Copy)]
struct Path {
    trail: u64,
    score: i64,
}

impl Path {
    /// Read backwards, the lower predecessor at the first place of difference wins. Both paths
    /// have `steps` steps and the same end.
    fn beats(&self, other: &Path, steps: usize) -> bool {
        if self.score != other.score {
            return self.score > other.score;
        }
        let state = |path: &Path, back: usize| path.trail >> back & 63;
        let differ = (1..=steps).find(|&back| state(self, back) != state(other, back));
        differ.is_some_and(|back| state(self, back) < state(other, back))
    }
}

/// The best path of each number of steps to each end state.
pub struct Best {
    steps: usize,
    by_end: Vec<[Path; 64]>,
}

impl Best {
    pub fn of(soft: &[i8]) -> Self {
        let steps = soft.len() / 4;
        let none = Path { trail: 0, score: i64::MIN };
        let mut best = Self { steps, by_end: vec![[none; 64]; steps + 1] };
        let branches: Vec<[i64; 128]> = soft.chunks_exact(4).map(step_scores).collect();
        for start in 0..64 {
            best.walk(&branches, 0, Path { trail: start, score: if start == 0 { 0 } else { -63 } });
        }
        best
    }

    fn walk(&mut self, branches: &[[i64; 128]], step: usize, path: Path) {
        let end = &mut self.by_end[step][path.trail as usize % 64];
        if end.score == i64::MIN || path.beats(end, step) {
            *end = path;
        }
        if step < self.steps {
            for bit in 0..2 {
                let trail = path.trail * 2 + bit;
                let score = path.score + branches[step][trail as usize % 128];
                self.walk(branches, step + 1, Path { trail, score });
            }
        }
    }

    /// Bit s of word t: the best path of t+1 steps to s comes from the higher predecessor.
    pub fn words(&self) -> Vec<u64> {
        let bit = |path: &Path, state: usize| (path.trail >> 6 & 1) << state;
        let word = |ends: &[Path; 64]| ends.iter().enumerate().map(|(state, path)| bit(path, state)).sum();
        self.by_end[1..].iter().map(word).collect()
    }

    /// Bits and score of the best path to state 0.
    pub fn to_state0(&self) -> (Vec<u8>, i64) {
        self.told(&self.by_end[self.steps][0])
    }

    /// Bits and score of the best path to any end, the lower end among equals.
    pub fn to_any(&self) -> (Vec<u8>, i64) {
        let ends = &self.by_end[self.steps];
        let best = ends.iter().map(|path| path.score).max().unwrap();
        self.told(ends.iter().find(|path| path.score == best).unwrap())
    }

    fn told(&self, path: &Path) -> (Vec<u8>, i64) {
        let bits = (0..self.steps).rev().map(|back| (path.trail >> back & 1) as u8).collect();
        (bits, path.score)
    }
}
