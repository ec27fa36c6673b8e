//! The Rattle library: include/feltcomet.h declared for Rust, each function behind a safe one.
//!
//! Every buffer is lent as a copy between margins. A safe function takes what the buffers hold
//! before the call and gives back what they hold after it, whole.

use crate::description::Description;
use crate::lent::{Answer, Lent};
use crate::model::directory::Directory;
use crate::stores::{FicStores, Percent, Places, Stores, alike};
use crate::tally::Outcome;

// A line for each, as the header has them.
#[rustfmt::skip]
unsafe extern "C" {
    fn feltcomet_energy_dispersal(bits: *mut u8, n: usize);
    // A C `bool`, read as the byte that it is, so that a third value would show.
    fn feltcomet_fib_crc_valid(fib: *const u8, n: usize) -> u8;
    fn feltcomet_check_crc_bits(bits: *const u8, n: usize) -> u8;

    fn feltcomet_judge(start: u16, size: u16, rate: u16, level: u8, option: u8, is_eep: u32) -> u8;
    fn feltcomet_profile(start: u16, size: u16, rate: u16, level: u8, option: u8, is_eep: u32, to: *mut u64, n: usize) -> u8;
    fn feltcomet_needed_size(start: u16, size: u16, rate: u16, level: u8, option: u8, is_eep: u32, to: *mut u64, n: usize) -> u8;
    fn feltcomet_depunctured_size(start: u16, size: u16, rate: u16, level: u8, option: u8, is_eep: u32, to: *mut u64, n: usize) -> u8;
    fn feltcomet_depuncture_msc(soft: *const i8, n: usize, start: u16, size: u16, rate: u16, level: u8, option: u8, is_eep: u32, out: *mut i8, m: usize) -> u8;
    fn feltcomet_depuncture_fic(soft: *const i8, n: usize, out: *mut i8, m: usize) -> u8;

    fn feltcomet_viterbi_decode_state0(soft: *const i8, n: usize, words: *mut u64, nw: usize, bits: *mut u8, nb: usize, metric: *mut i32, nm: usize) -> u8;
    fn feltcomet_viterbi_decode_with_metric(soft: *const i8, n: usize, words: *mut u64, nw: usize, bits: *mut u8, nb: usize, metric: *mut i32, nm: usize) -> u8;

    fn feltcomet_process_fic(s1: *const i8, n1: usize, s2: *const i8, n2: usize, s3: *const i8, n3: usize, depunctured: *mut i8, nd: usize, words: *mut u64, nw: usize, bits: *mut u8, nb: usize, fibs: *mut u8, nf: usize, counts: *mut u64, nc: usize, metrics: *mut i32, nm: usize, percents: *mut f64, np: usize) -> u8;

    fn feltcomet_directory_empty(subs: *mut u64, ns: usize, services: *mut u64, nv: usize) -> u8;
    fn feltcomet_directory_read(fibs: *const u8, nf: usize, subs: *mut u64, ns: usize, services: *mut u64, nv: usize, counts: *mut u64, nc: usize) -> u8;
    fn feltcomet_directory_sub_channel(subs: *const u64, ns: usize, id: usize, to: *mut u64, n: usize) -> u8;
    fn feltcomet_directory_service(services: *const u64, nv: usize, place: usize, to: *mut u64, n: usize) -> u8;
    fn feltcomet_directory_audio(services: *const u64, nv: usize, place: usize, to: *mut u64, n: usize) -> u8;

    fn feltcomet_set_up(start: u16, size: u16, rate: u16, level: u8, option: u8, is_eep: u32, ring: *mut i8, nr: usize, state: *mut u64, ns: usize) -> u8;
    fn feltcomet_reset(state: *mut u64, ns: usize, ring: *mut i8, nr: usize) -> u8;
    fn feltcomet_feed_symbol(state: *mut u64, ns: usize, soft: *const i8, n: usize, cif: *mut i8, ncif: usize, ring: *mut i8, nr: usize, deinterleaved: *mut i8, nd: usize, depunctured: *mut i8, np: usize, words: *mut u64, nw: usize, bits: *mut u8, nb: usize, frame: *mut u8, nf: usize, length: *mut u64, nl: usize, percent: *mut f64, npc: usize) -> u8;
}

fn yes_or_no(byte: u8) -> Answer<bool> {
    match byte {
        0 => Ok(false),
        1 => Ok(true),
        _ => Err("a bool that is neither 0 nor 1"),
    }
}

pub fn energy_dispersal(bits: &[u8]) -> Answer<Vec<u8>> {
    let mut bits = Lent::new(bits, 0x5A);
    unsafe { feltcomet_energy_dispersal(bits.as_mut_ptr(), bits.len()) };
    bits.left()
}

/// `behind` lies in memory behind what is lent.
pub fn fib_crc_valid(fib: &[u8], behind: &[u8]) -> Answer<bool> {
    let fib = Lent::followed(fib, behind, 0x5A);
    let answer = unsafe { feltcomet_fib_crc_valid(fib.as_ptr(), fib.len()) };
    fib.unwritten()?;
    yes_or_no(answer)
}

/// `behind` lies in memory behind what is lent.
pub fn check_crc_bits(bits: &[u8], behind: &[u8]) -> Answer<bool> {
    let bits = Lent::followed(bits, behind, 1);
    let answer = unsafe { feltcomet_check_crc_bits(bits.as_ptr(), bits.len()) };
    bits.unwritten()?;
    yes_or_no(answer)
}

pub fn judge(d: &Description) -> u8 {
    unsafe { feltcomet_judge(d.start_addr, d.sub_size, d.bitrate, d.protection_level, d.eep_option, d.is_eep) }
}

type Lookup = unsafe extern "C" fn(u16, u16, u16, u8, u8, u32, *mut u64, usize) -> u8;

fn lookup(call: Lookup, d: &Description, before: &[u64]) -> Answer<(u8, Vec<u64>)> {
    let mut to = Lent::new(before, 0x5A5A);
    let (rate, level, option) = (d.bitrate, d.protection_level, d.eep_option);
    let number = unsafe { call(d.start_addr, d.sub_size, rate, level, option, d.is_eep, to.as_mut_ptr(), to.len()) };
    Ok((number, to.left()?))
}

pub fn profile(d: &Description, before: &[u64]) -> Answer<(u8, Vec<u64>)> {
    lookup(feltcomet_profile, d, before)
}

pub fn needed_size(d: &Description, before: &[u64]) -> Answer<(u8, Vec<u64>)> {
    lookup(feltcomet_needed_size, d, before)
}

pub fn depunctured_size(d: &Description, before: &[u64]) -> Answer<(u8, Vec<u64>)> {
    lookup(feltcomet_depunctured_size, d, before)
}

pub fn depuncture_msc(soft: &[i8], d: &Description, before: &[i8]) -> Answer<(u8, Vec<i8>)> {
    let (soft, mut out) = (Lent::new(soft, 0x5A), Lent::new(before, 0x5A));
    let (rate, level, option) = (d.bitrate, d.protection_level, d.eep_option);
    let (from, n, to, m) = (soft.as_ptr(), soft.len(), out.as_mut_ptr(), out.len());
    let number =
        unsafe { feltcomet_depuncture_msc(from, n, d.start_addr, d.sub_size, rate, level, option, d.is_eep, to, m) };
    soft.unwritten()?;
    Ok((number, out.left()?))
}

pub fn depuncture_fic(soft: &[i8], before: &[i8]) -> Answer<(u8, Vec<i8>)> {
    let (soft, mut out) = (Lent::new(soft, 0x5A), Lent::new(before, 0x5A));
    let number = unsafe { feltcomet_depuncture_fic(soft.as_ptr(), soft.len(), out.as_mut_ptr(), out.len()) };
    soft.unwritten()?;
    Ok((number, out.left()?))
}

/// What a decoder answers, and what it leaves in the memory lent to it.
#[derive(Debug, Clone, PartialEq)]
pub struct Decoding {
    pub number: u8,
    pub words: Vec<u64>,
    pub bits: Vec<u8>,
    pub metric: Vec<i32>,
}

pub type Decoder = unsafe extern "C" fn(*const i8, usize, *mut u64, usize, *mut u8, usize, *mut i32, usize) -> u8;

pub const STATE0: Decoder = feltcomet_viterbi_decode_state0;
pub const WITH_METRIC: Decoder = feltcomet_viterbi_decode_with_metric;

/// `before` is what the three buffers hold before the call.
pub fn decode(decoder: Decoder, soft: &[i8], before: &Decoding) -> Answer<Decoding> {
    let soft = Lent::new(soft, 0x5A);
    let (mut words, mut bits) = (Lent::new(&before.words, 0x5A), Lent::new(&before.bits, 0x5A));
    let mut metric = Lent::new(&before.metric, 0x5A);
    let (w, b, m) = (words.as_mut_ptr(), bits.as_mut_ptr(), metric.as_mut_ptr());
    let number = unsafe { decoder(soft.as_ptr(), soft.len(), w, words.len(), b, bits.len(), m, metric.len()) };
    soft.unwritten()?;
    Ok(Decoding { number, words: words.left()?, bits: bits.left()?, metric: metric.left()? })
}

/// The same with nothing copied and nothing watched, for the measurements.
pub fn decode_into(decoder: Decoder, soft: &[i8], words: &mut [u64], bits: &mut [u8], metric: &mut [i32]) -> u8 {
    let (w, b, m) = (words.as_mut_ptr(), bits.as_mut_ptr(), metric.as_mut_ptr());
    unsafe { decoder(soft.as_ptr(), soft.len(), w, words.len(), b, bits.len(), m, metric.len()) }
}

/// The number, and what is left in the memory lent.
pub fn process_fic(symbols: [&[i8]; 3], before: &FicStores) -> Answer<(u8, FicStores)> {
    let [s1, s2, s3] = symbols.map(|soft| Lent::new(soft, 0x5A));
    let (mut depunctured, mut words) = (Lent::new(&before.depunctured, 0x5A), Lent::new(&before.words, 0x5A));
    let (mut bits, mut fibs) = (Lent::new(&before.bits, 0x5A), Lent::new(&before.fibs, 0x5A));
    let (mut counts, mut metrics) = (Lent::new(&before.counts, 0x5A), Lent::new(&before.metrics, 0x5A));
    let mut percents = Lent::new(&before.percents, Percent(0.5));
    #[rustfmt::skip]
    let number = unsafe {
        feltcomet_process_fic(
            s1.as_ptr(), s1.len(), s2.as_ptr(), s2.len(), s3.as_ptr(), s3.len(),
            depunctured.as_mut_ptr(), depunctured.len(), words.as_mut_ptr(), words.len(), bits.as_mut_ptr(), bits.len(),
            fibs.as_mut_ptr(), fibs.len(), counts.as_mut_ptr(), counts.len(), metrics.as_mut_ptr(), metrics.len(),
            percents.as_mut_ptr().cast(), percents.len(),
        )
    };
    for symbol in [s1, s2, s3] {
        symbol.unwritten()?;
    }
    let (depunctured, words, bits, fibs) = (depunctured.left()?, words.left()?, bits.left()?, fibs.left()?);
    let (counts, metrics, percents) = (counts.left()?, metrics.left()?, percents.left()?);
    Ok((number, FicStores { depunctured, words, bits, fibs, counts, metrics, percents }))
}

/// A sub-channel's memory, lent to one call after another.
pub struct Receiver {
    state: Lent<u64>,
    cif: Lent<i8>,
    ring: Lent<i8>,
    deinterleaved: Lent<i8>,
    depunctured: Lent<i8>,
    words: Lent<u64>,
    bits: Lent<u8>,
    frame: Lent<u8>,
    length: Lent<u64>,
    percent: Lent<Percent>,
}

impl Receiver {
    pub fn new(stores: &Stores) -> Self {
        Self {
            state: Lent::new(&stores.state, 0x5A),
            cif: Lent::new(&stores.cif, 0x5A),
            ring: Lent::new(&stores.ring, 0x5A),
            deinterleaved: Lent::new(&stores.deinterleaved, 0x5A),
            depunctured: Lent::new(&stores.depunctured, 0x5A),
            words: Lent::new(&stores.words, 0x5A),
            bits: Lent::new(&stores.bits, 0x5A),
            frame: Lent::new(&stores.frame, 0x5A),
            length: Lent::new(&stores.length, 0x5A),
            percent: Lent::new(&stores.percent, Percent(0.5)),
        }
    }

    /// Other contents between two calls, of the same lengths.
    pub fn refill(&mut self, stores: &Stores) {
        self.state.refill(&stores.state);
        self.cif.refill(&stores.cif);
        self.ring.refill(&stores.ring);
        self.deinterleaved.refill(&stores.deinterleaved);
        self.depunctured.refill(&stores.depunctured);
        self.words.refill(&stores.words);
        self.bits.refill(&stores.bits);
        self.frame.refill(&stores.frame);
        self.length.refill(&stores.length);
        self.percent.refill(&stores.percent);
    }

    /// `places` is how many places of each are handed over, of those that are there.
    pub fn set_up(&mut self, d: &Description, places: &Places) -> u8 {
        let (rate, level, option) = (d.bitrate, d.protection_level, d.eep_option);
        let (ring, state) = (self.ring.as_mut_ptr(), self.state.as_mut_ptr());
        let (nr, ns) = (places[2], places[0]);
        unsafe { feltcomet_set_up(d.start_addr, d.sub_size, rate, level, option, d.is_eep, ring, nr, state, ns) }
    }

    pub fn reset(&mut self, places: &Places) -> u8 {
        unsafe { feltcomet_reset(self.state.as_mut_ptr(), places[0], self.ring.as_mut_ptr(), places[2]) }
    }

    pub fn feed(&mut self, soft: &[i8], places: &Places) -> Answer<u8> {
        let soft = Lent::new(soft, 0x5A);
        #[rustfmt::skip]
        let number = unsafe {
            feltcomet_feed_symbol(
                self.state.as_mut_ptr(), places[0], soft.as_ptr(), soft.len(), self.cif.as_mut_ptr(), places[1],
                self.ring.as_mut_ptr(), places[2], self.deinterleaved.as_mut_ptr(), places[3],
                self.depunctured.as_mut_ptr(), places[4], self.words.as_mut_ptr(), places[5],
                self.bits.as_mut_ptr(), places[6], self.frame.as_mut_ptr(), places[7],
                self.length.as_mut_ptr(), places[8], self.percent.as_mut_ptr().cast(), places[9],
            )
        };
        soft.unwritten()?;
        Ok(number)
    }

    /// All lent memory, and the margins about it, as the model has it.
    pub fn alike(&self, model: &Stores) -> Outcome {
        alike("state", &model.state, self.state.held()?)?;
        alike("length", &model.length, self.length.held()?)?;
        alike("percent", &model.percent, self.percent.held()?)?;
        alike("frame", &model.frame, self.frame.held()?)?;
        alike("deinterleaved", &model.deinterleaved, self.deinterleaved.held()?)?;
        alike("ring", &model.ring, self.ring.held()?)?;
        alike("cif", &model.cif, self.cif.held()?)?;
        alike("depunctured", &model.depunctured, self.depunctured.held()?)?;
        alike("words", &model.words, self.words.held()?)?;
        alike("bits", &model.bits, self.bits.held()?)
    }
}

/// `before` is what the directory's numbers hold before the call.
pub fn directory_empty(before: &Directory) -> Answer<(u8, Directory)> {
    let (mut subs, mut services) = (Lent::new(&before.subs, 0x5A), Lent::new(&before.services, 0x5A));
    let (s, v) = (subs.as_mut_ptr(), services.as_mut_ptr());
    let number = unsafe { feltcomet_directory_empty(s, subs.len(), v, services.len()) };
    Ok((number, Directory { subs: subs.left()?, services: services.left()? }))
}

/// The same, and what the counts hold after it.
pub fn directory_read(fibs: &[u8], before: &Directory, counts: &[u64]) -> Answer<(u8, Directory, Vec<u64>)> {
    let (mut subs, mut services) = (Lent::new(&before.subs, 0x5A), Lent::new(&before.services, 0x5A));
    let (fibs, mut counts) = (Lent::new(fibs, 0x5A), Lent::new(counts, 0x5A));
    let (s, v, c) = (subs.as_mut_ptr(), services.as_mut_ptr(), counts.as_mut_ptr());
    let (f, n) = (fibs.as_ptr(), fibs.len());
    let number = unsafe { feltcomet_directory_read(f, n, s, subs.len(), v, services.len(), c, counts.len()) };
    fibs.unwritten()?;
    Ok((number, Directory { subs: subs.left()?, services: services.left()? }, counts.left()?))
}

type Looks = unsafe extern "C" fn(*const u64, usize, usize, *mut u64, usize) -> u8;

fn looked(call: Looks, numbers: &[u64], place: usize, before: &[u64]) -> Answer<(u8, Vec<u64>)> {
    let (numbers, mut to) = (Lent::new(numbers, 0x5A), Lent::new(before, 0x5A));
    let number = unsafe { call(numbers.as_ptr(), numbers.len(), place, to.as_mut_ptr(), to.len()) };
    numbers.unwritten()?;
    Ok((number, to.left()?))
}

pub fn directory_sub_channel(subs: &[u64], id: usize, before: &[u64]) -> Answer<(u8, Vec<u64>)> {
    looked(feltcomet_directory_sub_channel, subs, id, before)
}

pub fn directory_service(services: &[u64], place: usize, before: &[u64]) -> Answer<(u8, Vec<u64>)> {
    looked(feltcomet_directory_service, services, place, before)
}

pub fn directory_audio(services: &[u64], place: usize, before: &[u64]) -> Answer<(u8, Vec<u64>)> {
    looked(feltcomet_directory_audio, services, place, before)
}
