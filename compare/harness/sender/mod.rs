//! The sender, written from document 01's "Sender's model" and the standard, not from a receiver.

pub mod puncturing;
pub mod uep_rows;

use crate::description::Description;
use crate::model::fib::{bits_of, with_crc};
use crate::random::Random;
use crate::samples::mother_code;
use std::collections::VecDeque;

/// Clause 12: bit i of a CIF belongs to the frame that began so many CIFs before.
pub const DELAYS: [usize; 16] = [0, 8, 4, 12, 2, 10, 6, 14, 1, 9, 5, 13, 3, 11, 7, 15];

/// Clause 10: P(X) = X^9 + X^5 + 1 with nine ones before the first bit.
pub fn dispersed(bits: &[u8]) -> Vec<u8> {
    let mut sequence = vec![1; 9];
    for k in 9..bits.len() + 9 {
        sequence.push(sequence[k - 9] ^ sequence[k - 5]);
    }
    bits.iter().zip(&sequence[9..]).map(|(bit, s)| bit ^ s).collect()
}

/// Disperse, six zero bits, encode, puncture.
fn coded(bytes: &[u8], kept: &[bool]) -> Vec<u8> {
    let mother = mother_code(&dispersed(&bits_of(bytes)));
    assert_eq!(mother.len(), kept.len(), "the profile is for another length");
    mother.into_iter().zip(kept).filter_map(|(bit, sent)| sent.then_some(bit)).collect()
}

/// The 2,304 bits of one FIC block: three FIBs with their CRC.
pub fn fic_block(fibs: &[[u8; 32]; 3]) -> Vec<u8> {
    coded(&fibs.concat(), &puncturing::kept(&puncturing::fic()))
}

/// Thirty bytes with their CRC.
pub fn fib(data: &[u8]) -> [u8; 32] {
    with_crc(data).try_into().expect("thirty bytes")
}

/// One sub-channel: frames go in, the sub-channel's part of CIF after CIF comes out.
pub struct Sender {
    kept: Vec<bool>,
    /// Bits of the sub-channel in a CIF, and bits of a frame that are sent: the rest is padding.
    size: usize,
    sent: usize,
    /// The coded frames that are still on their way, the newest first; zero bits before the first.
    frames: VecDeque<Vec<u8>>,
}

impl Sender {
    pub fn new(d: &Description) -> Self {
        let kept = puncturing::kept(&puncturing::msc(d));
        let (size, sent) = (64 * usize::from(d.sub_size), kept.iter().filter(|k| **k).count());
        assert!(sent <= size, "{sent} bits do not fit into {d:?}");
        Self { kept, size, sent, frames: vec![vec![0; size]; 16].into() }
    }

    /// The sub-channel's bits of the CIF with which the sending of `frame` begins.
    pub fn send(&mut self, frame: &[u8]) -> Vec<u8> {
        let mut bits = coded(frame, &self.kept);
        bits.resize(self.size, 0);
        self.frames.pop_back();
        self.frames.push_front(bits);
        (0..self.size).map(|i| self.frames[DELAYS[i % 16]][i]).collect()
    }

    /// Whether place i of the sub-channel carries a bit of a frame, and not padding.
    pub fn carries(&self, i: usize) -> bool {
        i < self.sent
    }
}

/// A value that is nonzero and has the bit's sign: 1 to 127, or -1 to -128.
pub fn clean(bit: u8, random: &mut Random) -> i8 {
    if bit == 1 { random.from_to(1, 127) as i8 } else { random.from_to(-128, -1) as i8 }
}
