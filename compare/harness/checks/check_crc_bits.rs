//! Inside the domain, 256 zeros and ones, ours is held against the Rust, and against the Rust's
//! byte test of the packed bits. Outside it ours says no, and the Rust's yes is a listed difference.

use super::Run;
use crate::model::fib::{bit_test, bits_of, packed, with_crc};
use crate::tally::{Outcome, Tally, same};
use crate::{ours, theirs};

pub fn compare(run: &Run, tally: &mut Tally) -> Outcome {
    let mut random = run.random("check_crc_bits");

    // Every CRC word behind the same data.
    for data in [vec![0; 30], vec![255; 30], random.bytes(30)] {
        for word in 0..=u16::MAX {
            one(&bits_of(&[&data[..], &word.to_be_bytes()].concat()), tally)?;
        }
    }

    // Good FIBs, each with every single wrong bit; every two wrong bits of one, and two of many.
    for _ in 0..run.times(60, 600) {
        let good = bits_of(&with_crc(&random.bytes(30)));
        known(&good, true, tally)?;
        for i in 0..256 {
            known(&flipped(&good, &[i]), false, tally)?;
        }
    }
    let good = bits_of(&with_crc(&random.bytes(30)));
    for i in 0..256 {
        for j in 0..i {
            known(&flipped(&good, &[i, j]), false, tally)?;
        }
    }
    for _ in 0..run.times(10_000, 100_000) {
        let good = bits_of(&with_crc(&random.bytes(30)));
        known(&good, true, tally)?;
        let i = random.below(256);
        let j = (i + 1 + random.below(255)) % 256;
        known(&flipped(&good, &[i, j]), false, tally)?;
        one(&random.bits(256), tally)?;
    }

    outside(run, tally)
}

/// Other lengths and other values: no, whatever the Rust says.
fn outside(run: &Run, tally: &mut Tally) -> Outcome {
    let mut random = run.random("check_crc_bits outside");

    // Every string of up to 17 bits: the shortest to which the Rust says yes is sixteen zeros.
    for length in 0..=17 {
        for word in 0..1u32 << length {
            let bits: Vec<u8> = (0..length).map(|i| (word >> i & 1) as u8).collect();
            one(&bits, tally)?;
        }
    }

    // A good FIB cut short, with what was cut off still behind it in memory.
    let good = bits_of(&with_crc(&random.bytes(30)));
    for length in 0..256 {
        beside(&good[..length], &good[length..], tally)?;
    }

    // Good CRCs of every whole number of bytes, cut and continued; random values of every length.
    for _ in 0..run.times(10, 100) {
        for bytes in 0..=70 {
            one(&bits_of(&with_crc(&random.bytes(bytes))), tally)?;
        }
        for length in 0..=600 {
            one(&random.bits(length), tally)?;
            one(&random.bytes(length), tally)?;
            let mut other = bits_of(&with_crc(&random.bytes(30)));
            other.resize(length, random.byte() & 1);
            one(&other, tally)?;
        }
    }

    // 256 values of a good FIB, one of them neither 0 nor 1: by its place, by its value.
    for place in 0..256 {
        for value in [2, 3, 128, 254, 255] {
            let mut other = good.clone();
            other[place] = value;
            one(&other, tally)?;
        }
    }
    for value in 2..=255 {
        let mut other = bits_of(&with_crc(&random.bytes(30)));
        other[random.below(256)] = value;
        one(&other, tally)?;
    }
    Ok(())
}

fn flipped(bits: &[u8], places: &[usize]) -> Vec<u8> {
    let mut other = bits.to_vec();
    for place in places {
        other[*place] ^= 1;
    }
    other
}

/// An input whose answer is known beforehand: up to two wrong bits never pass this CRC.
fn known(bits: &[u8], answer: bool, tally: &mut Tally) -> Outcome {
    same(["the standard", "the model"], answer, bit_test(bits), || format!("{bits:?}"))?;
    one(bits, tally)
}

fn one(bits: &[u8], tally: &mut Tally) -> Outcome {
    beside(bits, &[], tally)
}

fn beside(bits: &[u8], behind: &[u8], tally: &mut Tally) -> Outcome {
    let input = || format!("{} values {bits:?}", bits.len());
    let ours = ours::check_crc_bits(bits, behind);
    let rust = theirs::check_crc_bits(bits);
    if bits.len() != 256 || bits.iter().any(|b| *b > 1) {
        if rust != Some(false) {
            tally.listed += 1;
        }
        return tally.model(Ok(bit_test(bits)), ours, input);
    }
    same(["the model", "the Rust"], Some(bit_test(bits)), rust, input)?;
    same(["the Rust's byte test", "ours"], Ok(theirs::fib_crc_valid(&packed(bits))), ours, input)?;
    tally.rust(rust.ok_or("a panic"), ours, input)
}
