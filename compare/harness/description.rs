//! A sub-channel's description, as both sides take it.

use crate::random::Random;
use dabradio::fic::fib::SubchannelInfo;

#[derive(Debug, Clone, Copy, PartialEq)]
pub struct Description {
    pub start_addr: u16,
    pub sub_size: u16,
    pub bitrate: u16,
    pub protection_level: u8,
    pub eep_option: u8,
    /// As C passes it: 0 no, else yes.
    pub is_eep: u32,
}

/// Flags that say yes, also where a byte or half of them is cut off.
pub const YES: [u32; 6] = [1, 2, 0x100, 0x1_0000, 0x8000_0000, 0xFFFF_FFFF];

impl Description {
    pub fn eep(eep_option: u8, protection_level: u8, bitrate: u16) -> Self {
        Self { start_addr: 0, sub_size: 0, bitrate, protection_level, eep_option, is_eep: 1 }
    }

    pub fn uep(protection_level: u8, bitrate: u16) -> Self {
        Self { is_eep: 0, ..Self::eep(0, protection_level, bitrate) }
    }

    pub fn sized(self, sub_size: u16) -> Self {
        Self { sub_size, ..self }
    }

    pub fn at(self, start_addr: u16) -> Self {
        Self { start_addr, ..self }
    }

    /// The same description to both sides, with the flag written another way.
    pub fn flagged(self, random: &mut Random) -> Self {
        if self.is_eep == 0 { self } else { Self { is_eep: *random.pick(&YES), ..self } }
    }

    /// Any place, any size: what the lookups must not look at.
    pub fn anywhere(self, random: &mut Random) -> Self {
        self.sized(random.next() as u16).at(random.next() as u16).flagged(random)
    }

    /// Every field over its whole range.
    pub fn any(random: &mut Random) -> Self {
        let mut number = || random.next();
        Self {
            start_addr: number() as u16,
            sub_size: number() as u16,
            bitrate: number() as u16,
            protection_level: number() as u8,
            eep_option: number() as u8,
            is_eep: (number() & 1) as u32,
        }
    }

    pub fn is_eep(&self) -> bool {
        self.is_eep != 0
    }

    pub fn for_rust(&self) -> SubchannelInfo {
        SubchannelInfo {
            start_addr: self.start_addr,
            sub_size: self.sub_size,
            bitrate: self.bitrate,
            protection_level: self.protection_level,
            eep_option: self.eep_option,
            is_eep: self.is_eep(),
            ..Default::default()
        }
    }
}
