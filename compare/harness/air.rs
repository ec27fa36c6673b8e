//! What is on the air: CIFs of 55,296 soft values with one sub-channel in its place.

use crate::description::Description;
use crate::random::Random;
use crate::samples::received;
use crate::sender::{Sender, clean};

/// How a CIF arrives.
#[derive(Debug, Clone, Copy)]
pub enum Kind {
    Clean,
    Strong,
    Noisy,
    Poor,
    Random,
    Ties,
    Erased,
}

pub const KINDS: [Kind; 7] =
    [Kind::Clean, Kind::Strong, Kind::Noisy, Kind::Poor, Kind::Random, Kind::Ties, Kind::Erased];

/// One sub-channel's transmission of random frames.
pub struct Air {
    d: Description,
    sender: Sender,
}

impl Air {
    pub fn new(d: &Description) -> Self {
        Self { d: *d, sender: Sender::new(d) }
    }

    /// The next CIF as it arrives, beside the frame whose sending begins with it.
    pub fn cif(&mut self, kind: Kind, random: &mut Random) -> (Vec<i8>, Vec<u8>) {
        let frame = random.bytes(3 * usize::from(self.d.bitrate));
        let bits = self.sender.send(&frame);
        let part: Vec<i8> = match kind {
            Kind::Clean => bits.iter().map(|bit| clean(*bit, random)).collect(),
            Kind::Strong => bits.iter().map(|bit| if *bit == 1 { 127 } else { -128 }).collect(),
            Kind::Noisy => received(&bits, 3, 10, random),
            Kind::Poor => received(&bits, 15, 30, random),
            Kind::Random => random.soft(bits.len()),
            Kind::Ties => bits.iter().map(|_| random.from_to(-1, 1) as i8).collect(),
            Kind::Erased => vec![0; bits.len()],
        };
        (placed(&self.d, &part, random), frame)
    }
}

/// A CIF with `part` at the sub-channel's place and random values elsewhere.
pub fn placed(d: &Description, part: &[i8], random: &mut Random) -> Vec<i8> {
    let mut cif = random.soft(55_296);
    cif[64 * usize::from(d.start_addr)..][..part.len()].copy_from_slice(part);
    cif
}

/// One of the 18 symbols of a CIF.
pub fn symbol(cif: &[i8], n: usize) -> &[i8] {
    &cif[3_072 * n..][..3_072]
}
