//! The comparisons, one module for each function or pair of them, and the one list of them.

mod agreement;
mod check_crc_bits;
mod decoders;
mod depuncture;
mod directory;
mod energy_dispersal;
mod example;
mod feed_symbol;
mod fib_crc_valid;
mod judge;
mod lookups;
pub mod process_fic;
pub mod receivers;
mod recordings;
mod reset;
mod set_up;

use crate::random::Random;
use crate::tally::{Outcome, Tally};
use std::path::PathBuf;

/// How this run goes.
pub struct Run {
    pub quick: bool,
    pub seed: u64,
    /// Where soft values made by another transmitter are at hand.
    pub recordings: Option<PathBuf>,
}

impl Run {
    pub fn random(&self, name: &str) -> Random {
        Random::new(self.seed, name)
    }

    /// How often to repeat, or how far apart to step: the first number in a quick run.
    pub fn times(&self, quick: usize, full: usize) -> usize {
        if self.quick { quick } else { full }
    }
}

pub struct Check {
    pub name: &'static str,
    /// Fewer inputs held against the Rust than this are a failure.
    pub least: u64,
    pub compare: fn(&Run, &mut Tally) -> Outcome,
}

/// A function stands here if functions.txt names it (`compare/build` sets `with`).
pub const CHECKS: &[Check] = &[
    #[cfg(with = "energy_dispersal")]
    Check { name: "energy_dispersal", least: 20_000, compare: energy_dispersal::compare },
    #[cfg(with = "fib_crc_valid")]
    Check { name: "fib_crc_valid", least: 20_000, compare: fib_crc_valid::compare },
    #[cfg(with = "check_crc_bits")]
    Check { name: "check_crc_bits", least: 20_000, compare: check_crc_bits::compare },
    #[cfg(with = "judge")]
    Check { name: "judge", least: 200_000, compare: judge::compare },
    #[cfg(with = "profile")]
    Check { name: "profile", least: 65_536 * 24, compare: lookups::profile },
    #[cfg(with = "needed_size")]
    Check { name: "needed_size", least: 65_536 * 24, compare: lookups::needed_size },
    #[cfg(with = "depunctured_size")]
    Check { name: "depunctured_size", least: 65_536 * 24, compare: lookups::depunctured_size },
    #[cfg(with = "depuncture_msc")]
    Check { name: "depuncture_msc", least: 781 * 7, compare: depuncture::msc },
    #[cfg(with = "depuncture_fic")]
    Check { name: "depuncture_fic", least: 2 * 2_400, compare: depuncture::fic },
    #[cfg(with = "viterbi_decode_state0")]
    Check { name: "viterbi_decode_state0", least: 50_000, compare: decoders::state0 },
    #[cfg(with = "viterbi_decode_with_metric")]
    Check { name: "viterbi_decode_with_metric", least: 50_000, compare: decoders::with_metric },
    #[cfg(with = "process_fic")]
    Check { name: "process_fic", least: 5_000, compare: process_fic::compare },
    #[cfg(with = "directory_empty")]
    Check { name: "directory_empty", least: 0, compare: directory::empty },
    #[cfg(all(
        with = "directory_read",
        with = "directory_sub_channel",
        with = "directory_service",
        with = "directory_audio"
    ))]
    Check { name: "directory_read", least: 200_000, compare: directory::read },
    #[cfg(with = "directory_sub_channel")]
    Check { name: "directory_sub_channel", least: 0, compare: directory::sub_channel },
    #[cfg(with = "directory_service")]
    Check { name: "directory_service", least: 0, compare: directory::service },
    #[cfg(with = "directory_audio")]
    Check { name: "directory_audio", least: 0, compare: directory::audio },
    #[cfg(with = "set_up")]
    Check { name: "set_up", least: 20_000, compare: set_up::compare },
    #[cfg(all(with = "set_up", with = "reset", with = "feed_symbol"))]
    Check { name: "reset", least: 10_000, compare: reset::compare },
    #[cfg(all(with = "set_up", with = "reset", with = "feed_symbol"))]
    Check { name: "feed_symbol", least: 100_000, compare: feed_symbol::compare },
    #[cfg(all(with = "set_up", with = "reset", with = "feed_symbol"))]
    Check { name: "agreement", least: 500, compare: agreement::compare },
    #[cfg(all(with = "process_fic", with = "set_up", with = "reset", with = "feed_symbol"))]
    // All that they have: twice 14 frames of FIC, and 14 of 72 symbols for each of three sub-channels.
    Check { name: "recordings", least: 2 * 14 + 3 * 14 * 72, compare: recordings::compare },
    #[cfg(all(with = "set_up", with = "reset", with = "feed_symbol"))]
    Check { name: "example", least: 11, compare: example::compare },
];
