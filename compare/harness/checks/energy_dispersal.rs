use super::Run;
use crate::tally::{Outcome, Tally, short};
use crate::{ours, theirs};

pub fn compare(run: &Run, tally: &mut Tally) -> Outcome {
    let mut random = run.random("energy_dispersal");

    // Every input of up to two bytes, and every string of up to twelve bits.
    one(&[], tally)?;
    for a in 0..=255 {
        one(&[a], tally)?;
        for b in 0..=255 {
            one(&[a, b], tally)?;
        }
    }
    for length in 3..=12 {
        for word in 0..1u32 << length {
            let bits: Vec<u8> = (0..length).map(|i| (word >> i & 1) as u8).collect();
            one(&bits, tally)?;
        }
    }

    // Every length past two periods of 511: still, full, bits, and any bytes.
    for length in 0..=1100 {
        one(&vec![0; length], tally)?;
        one(&vec![255; length], tally)?;
        one(&random.bits(length), tally)?;
        one(&random.bytes(length), tally)?;
    }
    for _ in 0..run.times(20_000, 200_000) {
        let length = random.below(71);
        one(&random.bytes(length), tally)?;
    }

    // The lengths in use: a FIC block, frames up to the widest, and beyond.
    for length in [768, 24 * 8, 24 * 384, 24 * 1824, 65_535, 65_536, 100_003] {
        for near in length - 1..=length + 1 {
            one(&random.bits(near), tally)?;
            one(&random.bytes(near), tally)?;
        }
    }
    Ok(())
}

fn one(bits: &[u8], tally: &mut Tally) -> Outcome {
    let mut rust = bits.to_vec();
    theirs::energy_dispersal(&mut rust);
    tally.rust(Ok(rust), ours::energy_dispersal(bits), || format!("{} values {}", bits.len(), short(&bits)))
}
