//! The station list of document 02's order 1, by clauses 5.2, 6.2.1 and 6.3.1, and how the
//! caller's numbers hold it: one for a sub-channel, four for a service (docs/DECISIONS.md).

use crate::description::Description;
use crate::sender::uep_rows::ROWS;

pub const PLACES: usize = 64;
pub const FIB: usize = 32;
/// Of its 32 bytes the last two are the CRC.
const DATA: usize = 30;
const MOST_COMPONENTS: usize = 12;

/// The numbers as they are lent: 64 and 256, and some more that nobody may touch.
#[derive(Debug, Clone, PartialEq)]
pub struct Directory {
    pub subs: Vec<u64>,
    pub services: Vec<u64>,
}

#[derive(Debug, Clone, PartialEq)]
pub struct Service {
    /// Whether the identifier has 32 bits.
    pub wide: bool,
    pub sid: u32,
    pub components: Vec<u16>,
}

/// FIBs read, broken ones, number and offset of the first broken one, entries left out.
pub type Counts = [u64; 5];

fn bits(number: u64, from: u32, n: u32) -> u64 {
    number >> from & ((1 << n) - 1)
}

/// Units for each 8 kbit/s of set A and each 32 kbit/s of set B, by level.
const UNITS: [[u32; 4]; 2] = [[12, 8, 6, 4], [27, 21, 18, 15]];

impl Directory {
    pub fn refusal(&self) -> u8 {
        if self.subs.len() < PLACES || self.services.len() < 4 * PLACES { 12 } else { 0 }
    }

    pub fn empty(&mut self) {
        self.subs[..PLACES].fill(0);
        self.services[..4 * PLACES].fill(0);
    }

    pub fn read(&mut self, fibs: &[u8]) -> Counts {
        let mut counts = [0; 5];
        for (number, fib) in fibs.chunks_exact(FIB).enumerate() {
            if let Some(offset) = self.fib(&fib[..DATA], &mut counts[4]) {
                if counts[1] == 0 {
                    (counts[2], counts[3]) = (number as u64, offset as u64);
                }
                counts[1] += 1;
            }
            counts[0] += 1;
        }
        counts
    }

    /// The offset of the FIG that passes the end, if there is one.
    fn fib(&mut self, data: &[u8], left_out: &mut u64) -> Option<usize> {
        let mut at = 0;
        while at < data.len() && data[at] != 0xFF {
            let (kind, length) = (data[at] >> 5, usize::from(data[at] % 32));
            let body = data.get(at + 1..at + 1 + length);
            let Some(body) = body else { return Some(at) };
            if kind == 0 {
                self.type_zero(body, left_out);
            }
            at += 1 + length;
        }
        None
    }

    fn type_zero(&mut self, body: &[u8], left_out: &mut u64) {
        let Some((&flags, entries)) = body.split_first() else { return };
        let [next, other, wide] = [0x80, 0x40, 0x20].map(|flag| flags & flag != 0);
        match flags % 32 {
            _ if next || other => {}
            1 => self.sub_channels(entries),
            2 => self.organise(wide, entries, left_out),
            _ => {}
        }
    }

    fn sub_channels(&mut self, mut rest: &[u8]) {
        while rest.len() >= 3 {
            let (id, start_addr) = (rest[0] / 4, u16::from_be_bytes([rest[0] % 4, rest[1]]));
            let blank = Description { start_addr, ..Description::uep(0, 0) };
            if rest[2] >= 128 {
                let Some(&low) = rest.get(3) else { return };
                let (option, level) = (rest[2] / 16 % 8, rest[2] / 4 % 4);
                let size = u16::from_be_bytes([rest[2] % 4, low]);
                let units = UNITS.get(usize::from(option)).map(|set| set[usize::from(level)]);
                let rate = units.map_or(0, |k| [8, 32][usize::from(option)] * u32::from(size) / k);
                let d = Description { protection_level: level, eep_option: option, is_eep: 1, ..blank };
                self.enter(id, &Description { sub_size: size, bitrate: rate as u16, ..d });
                rest = &rest[4..];
            } else {
                // 64 and above is the reserved table.
                if let Some(row) = ROWS.get(usize::from(rest[2])) {
                    let d = Description { sub_size: row.units, bitrate: row.bitrate, ..blank };
                    self.enter(id, &Description { protection_level: row.level, ..d });
                }
                rest = &rest[3..];
            }
        }
    }

    fn enter(&mut self, id: u8, d: &Description) {
        let fields = u64::from(d.start_addr) | u64::from(d.sub_size) << 16 | u64::from(d.bitrate) << 32;
        let kind = u64::from(d.protection_level) << 48 | u64::from(d.eep_option) << 56 | u64::from(d.is_eep) << 60;
        self.subs[usize::from(id)] = fields | kind | 1 << 61;
    }

    fn organise(&mut self, wide: bool, mut rest: &[u8], left_out: &mut u64) {
        let id = if wide { 4 } else { 2 };
        while let Some(&counted) = rest.get(id) {
            let Some(words) = rest.get(id + 1..id + 1 + 2 * usize::from(counted % 16)) else { return };
            let sid = rest[..id].iter().fold(0, |sid, &b| sid << 8 | u32::from(b));
            let components = words.chunks(2).map(|w| u16::from_be_bytes([w[0], w[1]])).collect();
            let service = Service { wide, sid, components };
            match self.place_for(&service) {
                Some(place) => self.put(place, &service),
                None => *left_out += 1,
            }
            rest = &rest[id + 1 + words.len()..];
        }
    }

    /// The lowest place that has the service, or else the lowest that is free.
    fn place_for(&self, wanted: &Service) -> Option<usize> {
        let its = |s: &Service| (s.wide, s.sid) == (wanted.wide, wanted.sid);
        let mut places = 0..PLACES;
        let own = places.clone().find(|&p| self.service(p).is_some_and(|s| its(&s)));
        own.or_else(|| places.find(|&p| self.service(p).is_none()))
    }

    fn put(&mut self, place: usize, s: &Service) {
        let head = u64::from(s.sid) | u64::from(s.wide) << 32 | (s.components.len() as u64) << 40 | 1 << 48;
        let numbers = &mut self.services[4 * place..][..4];
        numbers.copy_from_slice(&[head, 0, 0, 0]);
        for (k, &word) in s.components.iter().enumerate() {
            numbers[1 + k / 4] |= u64::from(word) << (16 * (k % 4));
        }
    }

    pub fn sub_channel(&self, id: usize) -> Option<Description> {
        let number = *self.subs[..PLACES].get(id)?;
        (bits(number, 61, 1) == 1).then(|| Description {
            start_addr: bits(number, 0, 16) as u16,
            sub_size: bits(number, 16, 16) as u16,
            bitrate: bits(number, 32, 16) as u16,
            protection_level: bits(number, 48, 8) as u8,
            eep_option: bits(number, 56, 4) as u8,
            is_eep: bits(number, 60, 1) as u32,
        })
    }

    pub fn service(&self, place: usize) -> Option<Service> {
        let numbers = self.services[..4 * PLACES].chunks(4).nth(place)?;
        (bits(numbers[0], 48, 1) == 1).then(|| {
            let n = MOST_COMPONENTS.min(bits(numbers[0], 40, 4) as usize);
            let word = |k: usize| bits(numbers[1 + k / 4], 16 * (k % 4) as u32, 16) as u16;
            Service {
                wide: bits(numbers[0], 32, 1) == 1,
                sid: numbers[0] as u32,
                components: (0..n).map(word).collect(),
            }
        })
    }

    /// The sub-channel of the first component that is stream audio and primary.
    pub fn audio(&self, place: usize) -> Option<u64> {
        let words = self.service(place)?.components;
        let word = words.into_iter().find(|w| w >> 14 == 0 && w >> 1 & 1 == 1)?;
        Some(u64::from(word >> 2 & 63))
    }
}

/// What set-up answers to an entry, as the standard's sizes have it: 7 apart.
pub fn set_up_says(d: &Description) -> u8 {
    let fits = |n: u8| if u32::from(d.start_addr) + u32::from(d.sub_size) > 864 { 7 } else { n };
    let Some(set) = UNITS.get(usize::from(d.eep_option)) else { return 1 };
    if d.is_eep == 0 {
        return fits(0);
    }
    let (k, size) = (set[usize::from(d.protection_level)], u32::from(d.sub_size));
    // 8 kbit/s at 2-A has no profile yet, so that sizes under two of its units are too low a rate.
    let least = if (d.eep_option, d.protection_level) == (0, 1) { 2 * k } else { k };
    if size < least {
        3
    } else if size % k != 0 {
        5
    } else {
        fits(0)
    }
}
