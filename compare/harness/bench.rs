//! State-0 decoding of 36,888 values, the widest UEP frame, by the Rust and by ours.
//!
//! The Rust makes and clears its own memory at each decode; ours is lent the same memory each time
//! and nobody clears it.

use crate::ours;
use crate::random::Random;
use crate::samples::{mother_code, received};
use crate::theirs::viterbi_decode_state0;
use std::hint::black_box;
use std::time::{Duration, Instant};

const VALUES: usize = 36_888;

struct Ours {
    words: Vec<u64>,
    bits: Vec<u8>,
    metric: [i32; 1],
}

impl Ours {
    fn new() -> Self {
        Self { words: vec![0; VALUES / 4], bits: vec![0; VALUES / 4], metric: [0] }
    }

    fn decode(&mut self, soft: &[i8]) {
        let number = ours::decode_into(ours::STATE0, soft, &mut self.words, &mut self.bits, &mut self.metric);
        assert_eq!(number, 0, "a refusal");
    }
}

/// usage: SIDE COUNT, SIDE being `rust`, `ours` or `both`. One side alone prints nothing: it is for
/// a counter of instructions.
pub fn run(words: &[String]) -> Result<(), String> {
    let [side, count] = words else { return Err("usage: compare bench rust|ours|both COUNT".to_string()) };
    let count: u32 = count.parse().map_err(|_| "the count is a number")?;
    let mut random = Random::new(0, "bench");
    let word = mother_code(&random.bits(VALUES / 4 - 6));
    let soft = received(&word, 5, 25, &mut random);
    let mut ours = Ours::new();
    match side.as_str() {
        "rust" => (0..count).for_each(|_| drop(black_box(viterbi_decode_state0(black_box(&soft))))),
        "ours" => (0..count).for_each(|_| ours.decode(black_box(&soft))),
        _ => both(&soft, count, &mut ours),
    }
    Ok(())
}

/// Turn by turn, so that what else the machine does falls on both.
fn both(soft: &[i8], count: u32, ours: &mut Ours) {
    let (mut rust_time, mut our_time) = (Duration::ZERO, Duration::ZERO);
    for _ in 0..count {
        let start = Instant::now();
        let (bits, metric) = black_box(viterbi_decode_state0(black_box(soft)));
        rust_time += start.elapsed();
        let start = Instant::now();
        ours.decode(black_box(soft));
        our_time += start.elapsed();
        assert!(bits == ours.bits && metric == ours.metric[0], "the two disagree");
    }
    let each = |time: Duration| time.as_secs_f64() * 1e3 / f64::from(count);
    println!("state-0 decoding of {VALUES} values, {count} times each, turn by turn");
    println!("Rust: {:.3} ms a decode, its memory made and cleared each time", each(rust_time));
    println!("ours: {:.3} ms a decode, lent memory not cleared", each(our_time));
    println!("ratio ours / Rust: {:.3}", our_time.as_secs_f64() / rust_time.as_secs_f64());
}
