//! Sender and receiver meet again after any loss: whatever came before, sixteen CIFs of the sender in
//! which the kept values of a frame have the sent bits' signs, and one CIF of any kind, give that
//! frame, from the Rust and from ours.

use super::Run;
use super::receivers::Receivers;
use crate::air::{Air, KINDS, placed, symbol};
use crate::description::Description;
use crate::random::Random;
use crate::samples::{anywhere_in_cif, shapes, small_shapes, spread};
use crate::sender::uep_rows::ROWS;
use crate::sender::{DELAYS, Sender, clean, puncturing};
use crate::tally::{Outcome, Tally, same};
use crate::theirs::UEP_PROFILES;

pub fn compare(run: &Run, tally: &mut Tally) -> Outcome {
    rows()?;
    let mut random = run.random("agreement");
    let small = small_shapes();
    let wide = if run.quick { spread(&mut random) } else { shapes() };
    let rest = run.times(260, 2_600);
    for i in 0..wide.len() + rest {
        let d = *wide.get(i).unwrap_or_else(|| random.pick(&small));
        let d = anywhere_in_cif(&d, &mut random);
        // Every strength in turn, and any strength for each value.
        one(&d, i % 129, &mut random, tally).map_err(|why| format!("{d:?}, strength {}: {why}", i % 129))?;
    }
    tally.note = format!("{} descriptions", wide.len() + rest);
    Ok(())
}

/// The sender's UEP rows, which are the standard's, against the Rust's.
fn rows() -> Outcome {
    for row in &ROWS {
        let input = || format!("UEP {} kbit/s, level {}", row.bitrate, row.level);
        let d = Description::uep(row.level, row.bitrate).sized(row.units);
        let rust = UEP_PROFILES.iter().find(|p| (p.bitrate, p.level) == (row.bitrate, row.level));
        let rust = rust.map(|p| (p.l, p.pi.map(|pi| pi.map_or(0, |pi| pi + 1))));
        same(["the standard", "the Rust"], Some((row.l, row.pi)), rust, input)?;
        let sent = puncturing::kept(&puncturing::msc(&d)).iter().filter(|kept| **kept).count();
        same(["the standard's size", "bits sent and padding"], 64 * usize::from(row.units), sent + row.pad, input)?;
    }
    Ok(())
}

/// A loss and a frame; where decoding is quick another of each in the same memory.
fn one(d: &Description, strength: usize, random: &mut Random, tally: &mut Tally) -> Outcome {
    let mut receivers = Receivers::set_up(d, random)?;
    let mut sender = Sender::new(d);
    let (losses, longest) = if d.sub_size <= 24 { (2, 25 * 18) } else { (1, 3 * 18) };
    for _ in 0..losses {
        let symbols = random.below(longest);
        history(&mut receivers, symbols, random).map_err(|why| format!("earlier: {why}"))?;
        for _ in 0..random.below(3) * random.below(10) {
            sender.send(&frame(d, random));
        }
        tally.compared += 1;
        sixteen(&mut receivers, &mut sender, strength, random)?;
    }
    Ok(())
}

/// What was received before, up to the end of a CIF as the receiver counts.
fn history(receivers: &mut Receivers, symbols: usize, random: &mut Random) -> Outcome {
    let d = receivers.d;
    let mut air = Air::new(&d);
    let (mut cif, mut begun) = (Vec::new(), symbols);
    if random.one_in(2) {
        begun = symbols.next_multiple_of(18);
    }
    for n in 0..begun {
        if n % 18 == 0 {
            cif = air.cif(*random.pick(&KINDS), random).0;
        }
        receivers.feed(symbol(&cif, n % 18))?;
    }
    match begun % 18 {
        0 => Ok(()),
        _ if random.one_in(2) => receivers.again(&d),
        _ => receivers.reset(),
    }
}

/// Sixteen CIFs in which the frame that begins with the first is clean, then any CIF.
fn sixteen(receivers: &mut Receivers, sender: &mut Sender, strength: usize, random: &mut Random) -> Outcome {
    let d = receivers.d;
    let sent = frame(&d, random);
    // In its strongest form only that frame's own places are clean.
    let own_places_only = random.one_in(2);
    for cif in 0..16 {
        let bits = sender.send(&if cif == 0 { sent.clone() } else { frame(&d, random) });
        let own = |i: usize| DELAYS[i % 16] == cif;
        let value = |(i, bit): (usize, &u8)| {
            let is_clean = sender.carries(i) && (own(i) || !own_places_only);
            if is_clean { with_strength(*bit, strength, random) } else { random.byte() as i8 }
        };
        let part: Vec<i8> = bits.iter().enumerate().map(value).collect();
        feed(receivers, &placed(&d, &part, random), random)?;
    }
    let last = air_of_any_kind(&d, random);
    match feed(receivers, &last, random)? {
        Some(given) if given == sent => Ok(()),
        given => Err(format!("sent {sent:02x?}\n  given by the Rust and ours: {given:02x?}")),
    }
}

fn air_of_any_kind(d: &Description, random: &mut Random) -> Vec<i8> {
    match random.below(3) {
        0 => vec![0; 55_296],
        1 => random.soft(55_296),
        _ => Air::new(d).cif(*random.pick(&KINDS), random).0,
    }
}

/// A CIF, with symbols between that are turned away and other contents in the work buffers.
fn feed(receivers: &mut Receivers, cif: &[i8], random: &mut Random) -> Result<Option<Vec<u8>>, String> {
    let mut answer = None;
    for n in 0..18 {
        if random.one_in(40) {
            let short = random.below(3_072);
            receivers.feed(&random.soft(short))?;
        }
        if random.one_in(40) {
            receivers.disturb(random);
        }
        answer = receivers.feed(symbol(cif, n))?;
    }
    Ok(answer)
}

/// Strength 0 is any for each value; 128 is -128 for 0 and 127 for 1.
fn with_strength(bit: u8, strength: usize, random: &mut Random) -> i8 {
    match (strength, bit) {
        (0, _) => clean(bit, random),
        (_, 1) => strength.min(127) as i8,
        _ => -(strength as i16) as i8,
    }
}

fn frame(d: &Description, random: &mut Random) -> Vec<u8> {
    let length = 3 * usize::from(d.bitrate);
    match random.below(8) {
        0 => vec![0; length],
        1 => vec![255; length],
        _ => random.bytes(length),
    }
}
