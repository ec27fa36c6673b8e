//! Inputs that several comparisons share.

use crate::description::Description;
use crate::random::Random;
use crate::theirs::{Protection, UEP_PROFILES};

/// Every description that is accepted, one for each row and rate, at the start of the CIF.
pub fn shapes() -> Vec<Description> {
    let eep = (0..=1).flat_map(|option| {
        let unit = if option == 0 { 8 } else { 32 };
        (0..=3).flat_map(move |level| (1..=256).map(move |n| Description::eep(option, level, n * unit)))
    });
    let uep = UEP_PROFILES.iter().map(|p| Description::uep(p.level, p.bitrate));
    eep.chain(uep).filter_map(fitted).filter(|d| d.sub_size <= 864).collect()
}

/// Those of at most 24 units, which are quick to decode.
pub fn small_shapes() -> Vec<Description> {
    shapes().into_iter().filter(|d| d.sub_size <= 24).collect()
}

/// Every option and level at rates from the least to the widest, and every UEP row.
pub fn spread(random: &mut Random) -> Vec<Description> {
    let shapes = shapes();
    let of = |option: u8, level: u8| {
        let this = move |d: &&Description| d.is_eep() && (d.eep_option, d.protection_level) == (option, level);
        shapes.iter().filter(this).copied().collect::<Vec<_>>()
    };
    let mut chosen = Vec::new();
    for (option, level) in (0..8).map(|i| (i / 4, i % 4)) {
        let rates = of(option, level);
        let last = rates.len() - 1;
        chosen.extend([0, 1, 2, last / 8, last / 3, random.below(last), last].map(|i| rates[i]));
    }
    chosen.extend(shapes.into_iter().filter(|d| !d.is_eep()));
    chosen
}

/// The description at any place where it fits, with what does not matter in it written another way.
pub fn anywhere_in_cif(d: &Description, random: &mut Random) -> Description {
    let last = 864 - usize::from(d.sub_size);
    let some = random.below(last + 1);
    let start = *random.pick(&[0, last, some, some]);
    let eep_option = if d.is_eep() { d.eep_option } else { random.byte() };
    Description { eep_option, ..d.at(start as u16).flagged(random) }
}

/// The description with the size that it needs, in units rounded up, where it has a row and the
/// size is one.
pub fn fitted(d: Description) -> Option<Description> {
    let units = Protection::of(&d)?.needed_size().div_ceil(64);
    Some(d.sized(units.try_into().ok()?))
}

/// The standard's mother code, clause 11.1.1: four bits for each bit of the message and for six
/// zeros behind it.
pub fn mother_code(message: &[u8]) -> Vec<u8> {
    let a = |i: usize, back: usize| if i < back { 0 } else { *message.get(i - back).unwrap_or(&0) };
    let sum = |i: usize, taps: &[usize]| taps.iter().fold(0, |sum, &back| sum ^ a(i, back));
    (0..message.len() + 6)
        .flat_map(|i| {
            let x0 = sum(i, &[0, 2, 3, 5, 6]);
            [x0, sum(i, &[0, 1, 2, 3, 6]), sum(i, &[0, 1, 4, 6]), x0]
        })
        .collect()
}

/// A sent word as it might be received: its signs, with `wrong` of each hundred turned round and
/// `erased` of each hundred gone.
pub fn received(word: &[u8], wrong: usize, erased: usize, random: &mut Random) -> Vec<i8> {
    let value = |bit: &u8| {
        if random.below(100) < erased {
            return 0;
        }
        let weight = random.from_to(1, 127) as i8;
        if (*bit == 1) == (random.below(100) >= wrong) { weight } else { -weight }
    };
    word.iter().map(value).collect()
}
