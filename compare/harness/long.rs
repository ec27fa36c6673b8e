//! One run without a break, past two rounds of any sixteen-bit counter: from the 17th on, each CIF
//! gives the frame whose sending began sixteen CIFs before, from the Rust and from ours.

use crate::air::{Air, Kind, symbol};
use crate::checks::Run;
use crate::checks::receivers::Receivers;
use crate::description::Description;
use std::collections::VecDeque;

/// The smallest sub-channel there is.
const SMALLEST: (u8, u8, u16, u16) = (0, 3, 8, 4);

pub fn run(cifs: u64, run: &Run) -> Result<(), String> {
    println!("seed {}", run.seed);
    let mut random = run.random("long");
    let (option, level, rate, size) = SMALLEST;
    let d = Description::eep(option, level, rate).sized(size).at(random.below(861) as u16);
    let mut receivers = Receivers::set_up(&d, &mut random)?;
    let (mut air, mut on_their_way) = (Air::new(&d), VecDeque::new());
    for n in 0..cifs {
        let (cif, frame) = air.cif(Kind::Clean, &mut random);
        on_their_way.push_back(frame);
        let expected = if n < 16 { None } else { on_their_way.pop_front() };
        for k in 0..18 {
            let answer = receivers.feed(symbol(&cif, k)).map_err(|why| format!("CIF {n}, symbol {k}: {why}"))?;
            if answer != expected.clone().filter(|_| k == 17) {
                return Err(format!("CIF {n}, symbol {k}: sent {expected:?}, given {answer:?}"));
            }
        }
        if (n + 1) % 20_000 == 0 {
            println!("{} CIFs, {} frames as sent", n + 1, n - 15);
        }
    }
    println!("long: {cifs} CIFs in one run, a frame at each from the 17th on, {} in all", cifs.saturating_sub(16));
    Ok(())
}
