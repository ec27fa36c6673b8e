//! The station list: every number that is lent, and the counts, against the model; sub-channels and
//! the sub-channel of a service's primary audio component against the Rust's `parse_fib`, where the two do
//! not part (docs/DIFFERENCES.md).

use super::Run;
use crate::description::Description;
use crate::lent::Answer;
use crate::model::directory::{Counts, Directory, FIB, PLACES, Service, set_up_says};
use crate::random::Random;
use crate::tally::{Outcome, Tally, same};
use crate::{ours, theirs};

const DATA: usize = 30;

/// Numbers as they may lie in memory: none, all bits, any.
fn held(random: &mut Random, subs: usize, services: usize) -> Directory {
    let kind = random.below(4);
    let mut number = |_| match kind {
        0 => 0,
        1 => u64::MAX,
        2 => random.next(),
        // Marked ones and others, with few identifiers, so that one stands at several places.
        _ => (random.next() & 3 << 48 | random.next() & 7) | (random.next() & 15) << 40,
    };
    Directory { subs: (0..subs).map(&mut number).collect(), services: (0..services).map(&mut number).collect() }
}

/// Lengths about the need.
fn lengths(random: &mut Random) -> (usize, usize) {
    (*random.pick(&[64, 64, 64, 67, 63, 0]), *random.pick(&[256, 256, 256, 259, 255, 63, 0]))
}

pub fn empty(run: &Run, tally: &mut Tally) -> Outcome {
    let mut random = run.random("directory_empty");
    for _ in 0..run.times(2_000, 20_000) {
        let (subs, services) = lengths(&mut random);
        let mut model = held(&mut random, subs, services);
        let ours = ours::directory_empty(&model);
        let number = model.refusal();
        let input = format!("{subs} and {services} numbers");
        if number == 0 {
            model.empty();
        }
        tally.model(Ok((number, model)), ours, || input)?;
    }
    Ok(())
}

/// 12, then 8, and an answer of `need` numbers before the rest as it was.
fn answered(number: u8, values: &[u64], before: &[u64]) -> (u8, Vec<u64>) {
    let mut after = before.to_vec();
    let number = if number == 0 && before.len() < values.len() { 8 } else { number };
    if number == 0 {
        after[..values.len()].copy_from_slice(values);
    }
    (number, after)
}

/// Places that there are, and others.
fn place(random: &mut Random) -> usize {
    let any = random.next() as usize;
    if random.one_in(8) { *random.pick(&[64, 65, 255, 256, usize::MAX, 1 << 32, any]) } else { random.below(PLACES) }
}

type Looks = (fn(&Directory, usize, &[u64]) -> Answer<(u8, Vec<u64>)>, fn(&Directory, usize) -> Vec<u64>);

fn looked(name: &str, need: usize, of_subs: bool, looks: Looks, run: &Run, tally: &mut Tally) -> Outcome {
    let mut random = run.random(name);
    for _ in 0..run.times(20_000, 200_000) {
        let (subs, services) = lengths(&mut random);
        // Only one of the two is lent.
        let model = if of_subs { held(&mut random, subs, 256) } else { held(&mut random, 64, services) };
        let place = place(&mut random);
        let before: Vec<u64> = (0..need + 2 - random.below(4)).map(|_| random.next()).collect();
        let number = model.refusal();
        let values = if number == 0 { looks.1(&model, place) } else { vec![0; need] };
        let expected = answered(number, &values, &before);
        let input = || format!("place {place} of {model:x?}, {} places for the answer", before.len());
        tally.model(Ok(expected), looks.0(&model, place, &before), input)?;
    }
    Ok(())
}

fn description_told(d: &Directory, id: usize) -> Vec<u64> {
    let Some(d) = d.sub_channel(id) else { return vec![0; 7] };
    let kind = [d.protection_level, d.eep_option].map(u64::from);
    let [start, size, rate] = [d.start_addr, d.sub_size, d.bitrate].map(u64::from);
    vec![1, start, size, rate, kind[0], kind[1], u64::from(d.is_eep)]
}

fn service_told(d: &Directory, place: usize) -> Vec<u64> {
    let mut told = vec![0; 16];
    if let Some(s) = d.service(place) {
        told[..4].copy_from_slice(&[1, u64::from(s.wide), u64::from(s.sid), s.components.len() as u64]);
        for (k, &word) in s.components.iter().enumerate() {
            told[4 + k] = u64::from(word);
        }
    }
    told
}

fn audio_told(d: &Directory, place: usize) -> Vec<u64> {
    d.audio(place).map_or(vec![0, 0], |id| vec![1, id])
}

pub fn sub_channel(run: &Run, tally: &mut Tally) -> Outcome {
    let looks: Looks = (|d, id, to| ours::directory_sub_channel(&d.subs, id, to), description_told);
    looked("directory_sub_channel", 7, true, looks, run, tally)
}

pub fn service(run: &Run, tally: &mut Tally) -> Outcome {
    let looks: Looks = (|d, place, to| ours::directory_service(&d.services, place, to), service_told);
    looked("directory_service", 16, false, looks, run, tally)
}

pub fn audio(run: &Run, tally: &mut Tally) -> Outcome {
    let looks: Looks = (|d, place, to| ours::directory_audio(&d.services, place, to), audio_told);
    looked("directory_audio", 2, false, looks, run, tally)
}

/// A directory of ours and of the model, side by side.
struct Both {
    model: Directory,
}

impl Both {
    fn empty() -> Self {
        Self { model: Directory { subs: vec![0; 67], services: vec![0; 259] } }
    }

    fn read(&mut self, fibs: &[u8], tally: &mut Tally) -> Result<Counts, String> {
        let before = [0x5A; 6];
        let ours = ours::directory_read(fibs, &self.model, &before);
        let old = self.model.clone();
        let counts = self.model.read(fibs);
        let (number, told) = answered(0, &counts, &before);
        tally.model(Ok((number, self.model.clone(), told)), ours, || format!("{fibs:02x?} into {old:x?}"))?;
        Ok(counts)
    }

    /// What the accessors say of every place.
    fn accessors(&self, tally: &mut Tally) -> Outcome {
        let d = &self.model;
        for p in 0..PLACES {
            let input = || format!("place {p} of {d:x?}");
            same(
                ["the model", "ours"],
                Ok((0, description_told(d, p))),
                ours::directory_sub_channel(&d.subs, p, &[9; 7]),
                input,
            )?;
            same(
                ["the model", "ours"],
                Ok((0, service_told(d, p))),
                ours::directory_service(&d.services, p, &[9; 16]),
                input,
            )?;
            same(
                ["the model", "ours"],
                Ok((0, audio_told(d, p))),
                ours::directory_audio(&d.services, p, &[9; 2]),
                input,
            )?;
            tally.modelled += 3;
        }
        Ok(())
    }

    /// All sub-channels against the Rust's.
    fn beside(&self, rust: &theirs::Ensemble, tally: &mut Tally, input: impl Fn() -> String) -> Outcome {
        for id in 0..PLACES {
            tally.rust(rust.sub_channel(id as u8), self.model.sub_channel(id), || {
                format!("sub-channel {id}: {}", input())
            })?;
        }
        Ok(())
    }
}

/// FIGs one behind another, an end marker where there is a byte left, padding, and any CRC.
fn fib(figs: &[Vec<u8>], random: &mut Random) -> Vec<u8> {
    let mut fib = figs.concat();
    assert!(fib.len() <= DATA);
    if fib.len() < DATA {
        fib.push(0xFF);
    }
    fib.resize(DATA, 0);
    fib.extend(random.bytes(2));
    fib
}

fn fig(kind: u8, body: &[u8]) -> Vec<u8> {
    [&[kind << 5 | body.len() as u8], body].concat()
}

fn sub_entry(random: &mut Random) -> Vec<u8> {
    let mut entry = random.bytes(4);
    entry[0] &= 0xFF << random.below(6); // few SubChIds now and then
    if random.one_in(2) {
        entry[2] &= 0x3F;
    }
    entry.truncate(if entry[2] < 128 { 3 } else { 4 });
    entry
}

/// A service with one primary component, which is stream audio; of 60 identifiers, none of them in both widths.
fn service_entry(wide: bool, most: usize, random: &mut Random) -> Vec<u8> {
    let n = 1 + random.below(most);
    let low = [0x40 + random.below(5) as u8, random.below(6) as u8];
    let mut entry = if wide { [&[0xE0, 1], &low[..]].concat() } else { low.to_vec() };
    entry.push((random.byte() & 0xF0) | n as u8);
    let primary = random.below(n);
    for k in 0..n {
        let word = random.next() as u16;
        let word = if k == primary { word & 0x3FFF | 2 } else { word & !2 };
        entry.extend(word.to_be_bytes());
    }
    entry
}

/// A FIB on which the Rust and the standard do not part.
fn alike(random: &mut Random) -> Vec<u8> {
    let mut figs: Vec<Vec<u8>> = vec![];
    let mut left = DATA;
    while left > 5 && !random.one_in(6) {
        let room = left - 2;
        let mut body = vec![];
        let kind = match random.below(5) {
            0 | 1 => {
                body.push(1 | random.byte() & 0x20); // P/D has no meaning here
                while body.len() + 4 <= room && !random.one_in(4) {
                    body.extend(sub_entry(random));
                }
                // An entry that the FIG's end cuts off is none.
                if body.len() + 2 <= room && random.one_in(4) {
                    let n = 1 + random.below(2);
                    body.extend(random.bytes(n));
                }
                0
            }
            2 | 3 => {
                let wide = random.one_in(3);
                body.push(2 | u8::from(wide) << 5);
                while room >= body.len() + 7 && !random.one_in(4) {
                    let most = (room - body.len() - 5) / 2;
                    body.extend(service_entry(wide, most.min(12), random));
                }
                0
            }
            _ => {
                let length = 1 + random.below(room);
                body = random.bytes(length);
                body[0] = body[0] & 0x38 | 3; // an extension that nobody here reads
                random.below(7) as u8
            }
        };
        left -= 1 + body.len();
        figs.push(fig(kind, &body));
    }
    // A FIG that passes the end ends the FIB on both sides.
    let at = DATA - left;
    let mut fib = fib(&figs, random);
    if left > 0 && random.one_in(8) {
        fib[at] = (random.below(7) as u8) << 5 | (left + random.below(32 - left.max(1))).min(31) as u8;
        fib[at] |= u8::from(fib[at] & 31 < left as u8) * 31;
        for b in &mut fib[at + 1..DATA] {
            *b = random.byte();
        }
    }
    fib
}

/// Whether the Rust's walk over a FIB's FIGs parts from the standard's: points 7 to 10.
fn parts(fib: &[u8]) -> bool {
    let mut at = 0;
    while at < DATA && fib[at] != 0xFF {
        let (kind, length) = (fib[at] >> 5, usize::from(fib[at] & 31));
        if kind == 7 {
            return true;
        }
        if length == 0 {
            return fib[at..DATA].iter().any(|&b| b != 0);
        }
        if at + length >= DATA {
            return false;
        }
        if kind == 0 && fib[at + 1] & 0xC0 != 0 {
            return true;
        }
        at += 1 + length;
    }
    false
}

pub fn read(run: &Run, tally: &mut Tally) -> Outcome {
    let mut random = run.random("directory_read");
    worked_examples(tally)?;
    entries(&mut random, tally)?;
    ends(&mut random, tally)?;
    services(&mut random, tally)?;
    refused(run, &mut random, tally)?;
    beside(run, &mut random, tally)?;
    noise(run, &mut random, tally)
}

fn worked_examples(tally: &mut Tally) -> Outcome {
    let hex = |text: &str| -> Vec<u8> {
        text.split(' ').map(|b| u8::from_str_radix(b, 16).expect("a byte in hex")).collect()
    };
    let first = "08 01 14 64 23 04 00 88 48 0b 02 40 01 01 3f 06 40 02 01 00 16 ff 00 00 00 00 00 00 00 00 82 a6";
    let mut both = Both::empty();
    same(["the standard", "the model"], [1, 0, 0, 0, 0], both.read(&hex(first), tally)?, || first.into())?;
    let uep = Description { start_addr: 100, sub_size: 96, ..Description::uep(3, 128) };
    let eep = Description { sub_size: 72, ..Description::eep(0, 2, 96) };
    same(["the standard", "the model"], [Some(eep), Some(uep)], [1, 5].map(|i| both.model.sub_channel(i)), || {
        first.into()
    })?;
    let listed = |sid, word| Some(Service { wide: false, sid, components: vec![word] });
    let services = [0, 1, 2].map(|p| both.model.service(p));
    same(["the standard", "the model"], [listed(0x4001, 0x3F06), listed(0x4002, 0x0016), None], services, || {
        first.into()
    })?;
    same(["the standard", "the model"], [Some(1), Some(5)], [0, 1].map(|p| both.model.audio(p)), || first.into())?;
    both.accessors(tally)?;

    let second = ["04 01 14 64 23 1a 01 18 00 00", &" 00".repeat(20), " 82 7b"].concat();
    let mut both = Both::empty();
    same(["the standard", "the model"], [1, 1, 0, 5, 0], both.read(&hex(&second), tally)?, || second.clone())?;
    same(["the standard", "the model"], [Some(uep), None], [5, 6].map(|i| both.model.sub_channel(i)), || second.clone())
}

/// All 256 third bytes of a short form, all 32,768 of a long one at one start; and set-up's answer to each.
fn entries(random: &mut Random, tally: &mut Tally) -> Outcome {
    for start in [0u16, 17, 448, 849, 863, 1_023] {
        let first = |id: u8| [id << 2 | (start >> 8) as u8, start as u8];
        let mut forms: Vec<Vec<u8>> = (0..128).map(|c| vec![c]).collect();
        if start == 17 {
            forms.extend((0..0x8000u16).map(|form| (form | 0x8000).to_be_bytes().to_vec()));
        }
        for form in forms {
            let id = random.below(PLACES) as u8;
            let mut both = Both::empty();
            let mut rust = theirs::Ensemble::default();
            let one = fib(&[fig(0, &[&[1], &first(id)[..], &form].concat())], random);
            both.read(&one, tally)?;
            rust.read(&one);
            let input = || format!("{one:02x?}");
            let reserved = (64..128).contains(&form[0]);
            let entered = both.model.sub_channel(id.into());
            same(["the standard", "the model"], !reserved, entered.is_some(), input)?;
            tally.rust(rust.sub_channel(id), entered, input)?;
            let Some(d) = entered else { continue };
            same(["the standard's table", "set-up"], set_up_says(&d), ours::judge(&d), input)?;
            tally.modelled += 1;
        }
    }
    Ok(())
}

/// Lengths 0, 30 and 31, every length at every offset, type 7, C/N and OE, and entries cut in each field.
fn ends(random: &mut Random, tally: &mut Tally) -> Outcome {
    for kind in 0..8 {
        for length in 0..32 {
            for at in 0..DATA {
                // FIGs of one byte each up to it, and an entry that must not count where the FIG passes the end.
                let mut one: Vec<u8> = (0..DATA + 2).map(|_| random.byte()).collect();
                one[..at].fill(0);
                one[at] = kind << 5 | length;
                if at + 1 < DATA {
                    one[at + 1] = *random.pick(&[1, 2, 0x21, 0x22, 0x41, 0x81, 0xC2]);
                }
                let counts = Both::empty().read(&one, tally)?;
                let passes = at + 1 + usize::from(length) > DATA && one[at] != 0xFF;
                if passes {
                    same(["the standard", "the model"], [1, 1, 0, at as u64, 0], counts, || format!("{one:02x?}"))?;
                }
            }
        }
    }
    for flags in 0..=255 {
        for length in 1..=29 {
            let body = [&[flags], &random.bytes(length - 1)[..]].concat();
            Both::empty().read(&fib(&[fig(0, &body)], random), tally)?;
        }
    }
    for _ in 0..20 {
        for (flags, entry) in
            [(1, sub_entry(random)), (2, service_entry(false, 12, random)), (0x22, service_entry(true, 11, random))]
        {
            for length in 0..=entry.len() {
                let whole = [&[flags], &entry[..length]].concat();
                let mut both = Both::empty();
                both.read(&fib(&[fig(0, &whole)], random), tally)?;
                let there = both.model.subs.iter().chain(&both.model.services).any(|&n| n != 0);
                let reserved = flags == 1 && (64..128).contains(&entry[2]);
                same(["the standard", "the model"], length == entry.len() && !reserved, there, || {
                    format!("{whole:02x?}")
                })?;
            }
        }
    }
    // No FIB, and an incomplete last one.
    let two = [alike(random), alike(random)].concat();
    for length in 0..=2 * FIB {
        let counts = Both::empty().read(&two[..length], tally)?;
        same(["the standard", "the model"], (length / FIB) as u64, counts[0], || format!("{length} bytes"))?;
    }
    Ok(())
}

/// 64 services, one more, 200; in a ring; components 0 to 15.
fn services(random: &mut Random, tally: &mut Tally) -> Outcome {
    for wide in [false, true] {
        let entry = |k: u16, n: u8, random: &mut Random| {
            let sid = [if wide { &[0, 0][..] } else { &[] }, &k.to_be_bytes()].concat();
            fib(
                &[fig(
                    0,
                    &[&[2 | u8::from(wide) << 5][..], &sid, &[n], &random.bytes(2 * usize::from(n.min(11)))].concat(),
                )],
                random,
            )
        };
        for many in [64, 65, 200] {
            let mut both = Both::empty();
            for ring in 0..3 {
                let mut fibs = vec![];
                for k in 0..many {
                    fibs.extend(entry(k, 1 + random.below(11) as u8, random));
                }
                let counts = both.read(&fibs, tally)?;
                let expected = [u64::from(many), 0, 0, 0, u64::from(many) - 64];
                same(["the standard", "the model"], expected, counts, || format!("{many} services, ring {ring}"))?;
            }
            both.accessors(tally)?;
        }
        for n in 0..16 {
            let mut both = Both::empty();
            both.read(&entry(7, n, random), tally)?;
            same(["the standard", "the model"], n < 12, both.model.service(0).is_some(), || format!("{n} components"))?;
            both.accessors(tally)?;
        }
    }
    Ok(())
}

/// 12, then 8, before any byte is read.
fn refused(run: &Run, random: &mut Random, tally: &mut Tally) -> Outcome {
    for _ in 0..run.times(2_000, 20_000) {
        let (subs, services) = lengths(random);
        let mut model = held(random, subs, services);
        let fibs = if random.one_in(2) { alike(random) } else { random.bytes(3 * FIB) };
        let before: Vec<u64> = (0..random.below(8)).map(|_| random.next()).collect();
        let ours = ours::directory_read(&fibs, &model, &before);
        let old = model.clone();
        let number = model.refusal();
        let counts = if number == 0 && before.len() >= 5 { model.read(&fibs) } else { [0; 5] };
        let (number, told) = answered(number, &counts, &before);
        tally
            .model(Ok((number, model, told)), ours, || format!("{fibs:02x?} into {old:x?}, {} counts", before.len()))?;
    }
    Ok(())
}

/// FIBs on which the two do not part: all sub-channels, and the sub-channel of each service.
fn beside(run: &Run, random: &mut Random, tally: &mut Tally) -> Outcome {
    for _ in 0..run.times(300, 5_000) {
        let (mut both, mut rust) = (Both::empty(), theirs::Ensemble::default());
        for _ in 0..1 + random.below(20) {
            let many = random.below(4);
            let fibs: Vec<u8> = (0..many).flat_map(|_| alike(random)).collect();
            both.read(&fibs, tally)?;
            rust.read(&fibs);
            let input = || format!("after {fibs:02x?}");
            both.beside(&rust, tally, input)?;
            let listed = (0..PLACES).filter_map(|p| Some((both.model.service(p)?.sid, both.model.audio(p)))).collect();
            tally.rust(rust.services(), listed, input)?;
        }
        both.accessors(tally)?;
    }
    Ok(())
}

/// Random FIBs and damaged ones, some to a call, into a directory that stands or any other.
fn noise(run: &Run, random: &mut Random, tally: &mut Tally) -> Outcome {
    let each = run.times(20_000, 1_000_000);
    for damaged in [false, true] {
        let mut done = 0;
        let mut both = Both::empty();
        while done < each {
            let many = random.below(5);
            let mut fibs: Vec<u8> =
                (0..many).flat_map(|_| if damaged { alike(random) } else { random.bytes(FIB) }).collect();
            if damaged {
                for _ in 0..=random.below(2 * many + 1) {
                    if let Some(at) = (!fibs.is_empty()).then(|| random.below(fibs.len())) {
                        fibs[at] = if random.one_in(2) { random.byte() } else { fibs[at] ^ 1 << random.below(8) };
                    }
                }
            }
            let tail = if random.one_in(4) { random.below(FIB) } else { 0 };
            fibs.extend(random.bytes(tail));
            both.read(&fibs, tally)?;
            done += many;
            if random.one_in(50) {
                both.accessors(tally)?;
                both.model = held(random, 67, 259);
            }
            // Each by itself, beside the Rust, where the two do not part.
            if random.one_in(4) {
                for one in fibs.chunks_exact(FIB) {
                    let (mut alone, mut rust) = (Both::empty(), theirs::Ensemble::default());
                    alone.read(one, tally)?;
                    rust.read(one);
                    if parts(one) {
                        tally.listed += 1;
                    } else {
                        alone.beside(&rust, tally, || format!("{one:02x?}"))?;
                    }
                }
            }
        }
    }
    Ok(())
}
