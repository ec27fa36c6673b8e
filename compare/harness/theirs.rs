//! The Rust original, as the comparisons call it.

use crate::description::Description;
use crate::stores::Percent;
use dabradio::fec::{eep, uep};
use dabradio::fic::fib::EnsembleInfo;
use dabradio::msc::MscHandler;
use std::collections::BTreeMap;
use std::panic::catch_unwind;
use tracing::{Event, Value, recorded};

pub use dabradio::constants::fib_crc_valid;
pub use dabradio::fec::eep::depuncture_fic;
pub use dabradio::fec::energy_dispersal::energy_dispersal;
pub use dabradio::fec::uep::UEP_PROFILES;
pub use dabradio::fec::viterbi::{viterbi_decode_state0, viterbi_decode_with_metric};

/// `None` where the original panics: its `size - 16` is below zero for fewer than sixteen values,
/// which wraps in a release build and stops a debug build.
pub fn check_crc_bits(bits: &[u8]) -> Option<bool> {
    catch_unwind(|| dabradio::handler_opened::check_crc_bits_opened(bits)).ok()
}

/// Whether `MscHandler::new` takes the description.
pub fn accepts(d: &Description) -> bool {
    MscHandler::new(&d.for_rust()).is_some()
}

/// The original's two kinds of protection behind one face.
pub enum Protection {
    Eep(eep::EepParams),
    Uep(uep::UepProfile),
}

impl Protection {
    pub fn of(d: &Description) -> Option<Self> {
        if d.is_eep() {
            eep::eep_params(d.bitrate, d.protection_level, d.eep_option).map(Self::Eep)
        } else {
            uep::profile(d.bitrate, d.protection_level).map(Self::Uep)
        }
    }

    /// Blocks of four regions, then their vectors counted from 0; 24 for an empty region.
    pub fn row(&self) -> [u64; 8] {
        let (blocks, pi) = match self {
            Self::Eep(p) => ([p.l1, p.l2, 0, 0], [p.pi1_index, p.pi2_index, 24, 24]),
            Self::Uep(p) => (p.l, p.pi.map(|pi| pi.unwrap_or(24))),
        };
        std::array::from_fn(|i| if i < 4 { blocks[i] as u64 } else { pi[i - 4] as u64 })
    }

    pub fn needed_size(&self) -> usize {
        match self {
            Self::Eep(p) => eep::msc_punctured_size(p),
            Self::Uep(p) => uep::punctured_size(p),
        }
    }

    pub fn depunctured_size(&self) -> usize {
        match self {
            Self::Eep(p) => eep::msc_depunctured_size(p),
            Self::Uep(p) => uep::depunctured_size(p),
        }
    }

    pub fn depuncture(&self, soft: &[i8]) -> Vec<i8> {
        match self {
            Self::Eep(p) => eep::depuncture_msc(soft, p),
            Self::Uep(p) => uep::depuncture(soft, p),
        }
    }
}

/// What the original logs of one decoding.
#[derive(Debug, Clone, PartialEq)]
pub struct Logged {
    pub metric: i32,
    pub sum: i32,
    /// The percentage, as far as the line has it: the FIC's has one decimal.
    pub percent: Value,
}

impl Logged {
    /// The percentage of a line that has all of it.
    pub fn percent(&self) -> Percent {
        match self.percent {
            Value::Float(percent) => Percent(percent),
            _ => panic!("a rounded percentage: {self:?}"),
        }
    }
}

/// The quality lines among all that a call logged.
fn logged(events: &[Event], message: &str) -> Vec<Logged> {
    let number = |event: &Event, name: &str| match event.field(name) {
        Some(Value::Number(n)) => *n as i32,
        other => panic!("{message}: {name} is {other:?}"),
    };
    let lines = events.iter().filter(|event| event.message == message);
    let told = |event: &Event| Logged {
        metric: number(event, "metric"),
        sum: number(event, "achievable"),
        percent: event.field("pct").cloned().expect("a percentage"),
    };
    lines.map(told).collect()
}

/// The FIBs, and a line for each block.
pub fn process_fic(symbols: [&[i8]; 3]) -> (Vec<[u8; 32]>, Vec<Logged>) {
    let symbols = symbols.map(<[i8]>::to_vec);
    let (fibs, events) = recorded(|| dabradio::fic::handler::process_fic(&symbols));
    (fibs, logged(&events, "FIC Viterbi metric"))
}

/// The original's receiver of one sub-channel.
pub struct Receiver {
    handler: MscHandler,
}

impl Receiver {
    pub fn new(d: &Description) -> Option<Self> {
        MscHandler::new(&d.for_rust()).map(|handler| Self { handler })
    }

    /// A frame if there is one, and the line that the original logs of its first three.
    pub fn feed(&mut self, soft: &[i8]) -> (Option<Vec<u8>>, Option<Logged>) {
        let (frame, events) = recorded(|| self.handler.feed_symbol(soft));
        (frame, logged(&events, "MSC Viterbi metric").pop())
    }

    pub fn reset(&mut self) {
        self.handler.reset();
    }

    pub fn frames_decoded(&self) -> u64 {
        self.handler.frames_decoded as u64
    }
}

/// The original's station list.
#[derive(Default)]
pub struct Ensemble {
    info: EnsembleInfo,
}

impl Ensemble {
    pub fn read(&mut self, fibs: &[u8]) {
        for fib in fibs.chunks_exact(32) {
            self.info.parse_fib(fib.try_into().expect("32 bytes"));
        }
    }

    pub fn sub_channel(&self, id: u8) -> Option<Description> {
        let s = self.info.subchannels.get(&id)?;
        Some(Description {
            start_addr: s.start_addr,
            sub_size: s.sub_size,
            bitrate: s.bitrate,
            protection_level: s.protection_level,
            eep_option: s.eep_option,
            is_eep: u32::from(s.is_eep),
        })
    }

    /// The services that came with a component, and their sub-channels; labels alone make none.
    pub fn services(&self) -> BTreeMap<u32, Option<u64>> {
        let with = self.info.services.iter().filter(|(_, s)| s.subchannel_id.is_some());
        with.map(|(&sid, s)| (sid, s.subchannel_id.map(u64::from))).collect()
    }
}
