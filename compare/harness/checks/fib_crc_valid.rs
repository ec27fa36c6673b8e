use super::Run;
use crate::model::fib::{byte_test, with_crc};
use crate::tally::{Outcome, Tally, same};
use crate::{ours, theirs};

pub fn compare(run: &Run, tally: &mut Tally) -> Outcome {
    let mut random = run.random("fib_crc_valid");

    // Every input of up to two bytes.
    one(&[], tally)?;
    for a in 0..=255 {
        one(&[a], tally)?;
        for b in 0..=255 {
            one(&[a, b], tally)?;
        }
    }

    // Every CRC word behind the same data.
    for data in [vec![0; 30], vec![255; 30], random.bytes(30)] {
        for word in 0..=u16::MAX {
            one(&[&data[..], &word.to_be_bytes()].concat(), tally)?;
        }
    }

    // Good FIBs; each with every single wrong bit; cut and continued to every length around 32.
    for _ in 0..run.times(300, 3_000) {
        let good = with_crc(&random.bytes(30));
        known(&good, true, tally)?;
        for i in 0..256 {
            known(&flipped(&good, &[i]), false, tally)?;
        }
        for length in 0..=70 {
            let mut other = good.clone();
            other.resize(70, random.byte());
            // What was cut off still lies behind, so that a look at it would show.
            beside(&other[..length], &other[length..], tally)?;
            known(&other[..length], length >= 32, tally)?;
            one(&random.bytes(length), tally)?;
        }
        // A CRC that is right for another length of data.
        let length = random.below(69);
        one(&with_crc(&random.bytes(length)), tally)?;
    }

    // Every two wrong bits of one FIB, and two of many.
    let good = with_crc(&random.bytes(30));
    for i in 0..256 {
        for j in 0..i {
            known(&flipped(&good, &[i, j]), false, tally)?;
        }
    }
    for _ in 0..run.times(20_000, 200_000) {
        let good = with_crc(&random.bytes(30));
        known(&good, true, tally)?;
        let i = random.below(256);
        let j = (i + 1 + random.below(255)) % 256;
        known(&flipped(&good, &[i, j]), false, tally)?;
    }
    Ok(())
}

fn flipped(fib: &[u8], places: &[usize]) -> Vec<u8> {
    let mut other = fib.to_vec();
    for place in places {
        other[place / 8] ^= 0x80 >> (place % 8);
    }
    other
}

/// An input whose answer is known beforehand: up to two wrong bits never pass this CRC.
fn known(fib: &[u8], answer: bool, tally: &mut Tally) -> Outcome {
    same(["the standard", "the Rust"], answer, theirs::fib_crc_valid(fib), || format!("{fib:02x?}"))?;
    one(fib, tally)
}

fn one(fib: &[u8], tally: &mut Tally) -> Outcome {
    beside(fib, &[], tally)
}

fn beside(fib: &[u8], behind: &[u8], tally: &mut Tally) -> Outcome {
    let rust = theirs::fib_crc_valid(fib);
    same(["the model", "the Rust"], byte_test(fib), rust, || format!("{fib:02x?}"))?;
    tally.rust(Ok(rust), ours::fib_crc_valid(fib, behind), || format!("{} bytes {fib:02x?}", fib.len()))
}
