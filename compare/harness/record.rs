//! Writes a sample of the Rust's answers as data, one file for each kind: see compare/README.md.
//!
//! A record: one byte of kind, two of input length, the input, two of answer length, the answer;
//! numbers low byte first. Only inputs inside the domain, where both sides must agree.

use crate::air::{Air, KINDS, Kind, symbol};
use crate::checks::process_fic::symbols;
use crate::checks::{CHECKS, Run};
use crate::description::Description;
use crate::model::fib::{bits_of, with_crc};
use crate::model::protection;
use crate::random::Random;
use crate::samples::{fitted, mother_code, received, shapes};
use crate::theirs::{self, Protection};
use std::path::Path;

#[derive(Default)]
struct Records {
    bytes: Vec<u8>,
}

impl Records {
    fn add(&mut self, kind: u8, input: &[u8], answer: &[u8]) {
        self.bytes.push(kind);
        for part in [input, answer] {
            let length = u16::try_from(part.len()).expect("a short record");
            self.bytes.extend_from_slice(&length.to_le_bytes());
            self.bytes.extend_from_slice(part);
        }
    }
}

type Recorder = fn(&mut Records, &mut Random);

/// The function whose comparison must be on, the file, and what goes into it.
const FILES: &[(&str, &str, Recorder)] = &[
    ("energy_dispersal", "energy_dispersal", energy_dispersal),
    ("fib_crc_valid", "fib_crc_valid", fib_crc_valid),
    ("check_crc_bits", "check_crc_bits", check_crc_bits),
    ("judge", "judge", judge),
    ("needed_size", "sizes", sizes),
    ("depuncture_msc", "depuncture_msc", depuncture_msc),
    ("depuncture_fic", "depuncture_fic", depuncture_fic),
    ("viterbi_decode_state0", "viterbi_decode_state0", |to, random| {
        decoder(8, theirs::viterbi_decode_state0, to, random);
    }),
    ("viterbi_decode_with_metric", "viterbi_decode_with_metric", |to, random| {
        decoder(9, theirs::viterbi_decode_with_metric, to, random);
    }),
    ("process_fic", "process_fic", process_fic),
    ("feed_symbol", "feed_symbol", feed_symbol),
];

pub fn all(folder: &Path, run: &Run) -> Result<(), String> {
    for (function, file, record) in FILES {
        if CHECKS.iter().any(|c| c.name == *function) {
            let mut to = Records::default();
            record(&mut to, &mut run.random(&format!("record {file}")));
            let path = folder.join(format!("{file}.dat"));
            std::fs::write(&path, &to.bytes).map_err(|e| format!("{}: {e}", path.display()))?;
            println!("{file}.dat: {} bytes of the Rust's answers", to.bytes.len());
        }
    }
    Ok(())
}

fn energy_dispersal(to: &mut Records, random: &mut Random) {
    let mut add = |bits: &[u8]| {
        let mut answer = bits.to_vec();
        theirs::energy_dispersal(&mut answer);
        to.add(1, bits, &answer);
    };
    add(&[0; 16]);
    for length in 0..=40 {
        add(&random.bits(length));
        add(&random.bytes(length));
    }
    for length in [510, 511, 512, 513, 768, 1_023] {
        add(&random.bits(length));
    }
}

fn fib_crc_valid(to: &mut Records, random: &mut Random) {
    let mut add = |fib: &[u8]| to.add(2, fib, &[u8::from(theirs::fib_crc_valid(fib))]);
    for length in 0..=70 {
        let mut fib = with_crc(&random.bytes(30));
        fib.resize(length, 0x55);
        add(&fib);
    }
    for _ in 0..30 {
        let mut fib = with_crc(&random.bytes(30));
        add(&fib);
        for _ in 0..2 {
            fib[random.below(32)] ^= 1 << random.below(8);
            add(&fib);
        }
    }
}

fn check_crc_bits(to: &mut Records, random: &mut Random) {
    let mut add = |bits: &[u8]| to.add(3, bits, &[u8::from(theirs::check_crc_bits(bits) == Some(true))]);
    for _ in 0..30 {
        let mut bits = bits_of(&with_crc(&random.bytes(30)));
        add(&bits);
        for _ in 0..2 {
            bits[random.below(256)] ^= 1;
            add(&bits);
        }
    }
}

/// Start, size and bit rate in two bytes each, then level, option and 1 for EEP.
fn told(d: &Description) -> Vec<u8> {
    let numbers = [d.start_addr, d.sub_size, d.bitrate].map(u16::to_le_bytes).concat();
    [numbers, vec![d.protection_level, d.eep_option, u8::from(d.is_eep())]].concat()
}

fn judge(to: &mut Records, random: &mut Random) {
    let mut add = |d: Description| {
        if !matches!(protection::judge(&d), 6 | 7) {
            to.add(4, &told(&d), &[u8::from(theirs::accepts(&d))]);
        }
    };
    let shapes = shapes();
    for _ in 0..100 {
        let d = random.pick(&shapes).at(random.below(860) as u16);
        add(d);
        add(d.sized(d.sub_size + 1));
        add(Description { protection_level: random.below(6) as u8, eep_option: random.below(3) as u8, ..d });
        add(Description::any(random));
    }
}

/// The needed and the depunctured size in four bytes each; no answer where there is no row.
fn sizes(to: &mut Records, random: &mut Random) {
    let mut add = |d: Description| {
        let sizes = Protection::of(&d).map(|p| [p.needed_size(), p.depunctured_size()]);
        let answer = sizes.map(|sizes| sizes.map(|n| (n as u32).to_le_bytes()).concat());
        to.add(5, &told(&d), &answer.unwrap_or_default());
    };
    for p in &theirs::UEP_PROFILES {
        add(Description::uep(p.level, p.bitrate));
    }
    for option in 0..=2 {
        for level in 0..=4 {
            for bitrate in [0, 7, 8, 16, 31, 32, 1_824, 65_535, random.next() as u16] {
                add(Description::eep(option, level, bitrate));
            }
        }
    }
}

/// The description's nine bytes, then the values.
fn depuncture_msc(to: &mut Records, random: &mut Random) {
    let mut add = |d: Description, more: isize| {
        let (d, protection) = (fitted(d).unwrap(), Protection::of(&d).unwrap());
        let soft = random.soft(protection.needed_size().saturating_add_signed(more));
        let input = [told(&d), bytes(&soft)].concat();
        to.add(6, &input, &bytes(&protection.depuncture(&soft)));
    };
    for level in 0..=3 {
        add(Description::eep(0, level, 16), 0);
        add(Description::eep(1, level, 32), 0);
    }
    for level in 1..=5 {
        add(Description::uep(level, 32), 0);
    }
    for more in [-1_000, -1, 1] {
        add(Description::eep(0, 3, 8), more);
    }
}

fn depuncture_fic(to: &mut Records, random: &mut Random) {
    for length in [0, 1_000, 2_303, 2_304, 2_310] {
        let soft = random.soft(length);
        to.add(7, &bytes(&soft), &bytes(&theirs::depuncture_fic(&soft)));
    }
}

/// The metric in four bytes, then the bits.
fn decoder(kind: u8, rust: fn(&[i8]) -> (Vec<u8>, i32), to: &mut Records, random: &mut Random) {
    let mut add = |soft: &[i8]| {
        let (bits, metric) = rust(soft);
        to.add(kind, &bytes(soft), &[&metric.to_le_bytes()[..], &bits].concat());
    };
    for case in [&[][..], &[10; 4], &[8, 8, 8, 7], &[8; 4], &[-128; 4], &[0; 4]] {
        add(case);
    }
    for length in [780, 784, 788] {
        add(&vec![-128; length]);
    }
    for last in [-40, -41] {
        add(&[&[-128; 780][..], &[last; 4]].concat());
    }
    for _ in 0..60 {
        let length = random.below(60);
        add(&random.soft(length));
        let ties: Vec<i8> = (0..length).map(|_| random.from_to(-1, 1) as i8).collect();
        add(&ties);
    }
    for steps in [40, 100, 774] {
        let word = mother_code(&random.bits(steps - 6));
        add(&received(&word, 8, 25, random));
    }
}

/// Three lengths in two bytes each, then the values; the FIBs.
fn process_fic(to: &mut Records, random: &mut Random) {
    let mut add = |lengths: [usize; 3]| {
        let symbols = symbols(lengths, random);
        let symbols = [&symbols[0][..], &symbols[1][..], &symbols[2][..]];
        let input = [lengths.map(|n| (n as u16).to_le_bytes()).concat(), bytes(&symbols.concat())].concat();
        to.add(10, &input, &theirs::process_fic(symbols).0.concat());
    };
    for _ in 0..6 {
        add([3_072; 3]);
    }
    for lengths in [[0; 3], [2_303, 0, 0], [0, 2_304, 0], [1_000, 3, 1_301], [3_072, 1_535, 0], [1, 3_072, 1_535]] {
        add(lengths);
    }
}

/// CIF after CIF since set-up: the 256 values of a sub-channel of 8 kbit/s, option 0, level 3, at the
/// start of the CIF, whose other values are 0. The frames in order.
fn feed_symbol(to: &mut Records, random: &mut Random) {
    let d = fitted(Description::eep(0, 3, 8)).unwrap();
    let mut add = |cifs: usize, kinds: &[Kind]| {
        let (mut air, mut rust) = (Air::new(&d), theirs::Receiver::new(&d).unwrap());
        let (mut input, mut frames) = (Vec::new(), Vec::new());
        for _ in 0..cifs {
            let mut cif = air.cif(*random.pick(kinds), random).0;
            cif[256..].fill(0);
            input.extend(bytes(&cif[..256]));
            frames.extend((0..18).filter_map(|n| rust.feed(symbol(&cif, n)).0).flatten());
        }
        to.add(11, &input, &frames);
    };
    add(40, &[Kind::Clean]);
    add(24, &[Kind::Noisy, Kind::Poor]);
    add(24, &KINDS);
    add(16, &[Kind::Strong]);
}

fn bytes(soft: &[i8]) -> Vec<u8> {
    soft.iter().map(|&value| value as u8).collect()
}
