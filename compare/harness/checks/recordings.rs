//! The recordings: what their transmitter sent comes out, from the Rust and from ours.

use super::Run;
use super::process_fic;
use super::receivers::Receivers;
use crate::recordings::{FIC_VALUES, FRAME_VALUES, NOT_AT_HAND, bytes, soft, sub_channels};
use crate::stores::FicStores;
use crate::tally::{Outcome, Tally, same};
use crate::theirs;
use std::path::Path;

pub fn compare(run: &Run, tally: &mut Tally) -> Outcome {
    let Some(folder) = &run.recordings else {
        tally.not_run = Some(NOT_AT_HAND);
        return Ok(());
    };
    let ensemble = soft(folder, "ensemble.soft")?;
    let fic: Vec<i8> = ensemble.chunks_exact(FRAME_VALUES).flat_map(|frame| &frame[..FIC_VALUES]).copied().collect();
    same(["fic.soft", "the FIC of ensemble.soft"], &soft(folder, "fic.soft")?, &fic, String::new)?;
    fibs(&fic, &bytes(folder, "ensemble.fibs")?, tally)?;
    fibs(&soft(folder, "fic-damaged.soft")?, &bytes(folder, "fic-damaged.fibs")?, tally)?;
    let frames = sub_channels_of(folder, &ensemble, run, tally)?;
    tally.note = format!("{frames} frames as sent");
    Ok(())
}

/// Every whole set of three symbols; the FIBs of all of them are `expected`.
fn fibs(fic: &[i8], expected: &[u8], tally: &mut Tally) -> Outcome {
    let mut fibs = Vec::new();
    for three in fic.chunks_exact(FIC_VALUES) {
        let symbols = [&three[..3_072], &three[3_072..6_144], &three[6_144..]];
        process_fic::held(symbols, &FicStores::new([3_096, 774, 774, 384, 5, 8, 4]), tally)?;
        fibs.extend(theirs::process_fic(symbols).0.concat());
    }
    same(["the recording's FIBs", "the Rust and ours"], expected, &fibs[..], || format!("{} values", fic.len()))
}

/// All 56 CIFs for each sub-channel: the first 40 frames, in order, are those sent.
fn sub_channels_of(folder: &Path, ensemble: &[i8], run: &Run, tally: &mut Tally) -> Result<usize, String> {
    let mut random = run.random("recordings");
    let mut count = 0;
    for (name, d) in sub_channels() {
        let mut receivers = Receivers::set_up(&d, &mut random).map_err(|why| format!("{name}: {why}"))?;
        let mut frames = Vec::new();
        for symbol in ensemble.chunks_exact(FRAME_VALUES).flat_map(|frame| frame[FIC_VALUES..].chunks_exact(3_072)) {
            tally.compared += 1;
            frames.extend(receivers.feed(symbol).map_err(|why| format!("{name}: {why}"))?);
        }
        let sent = bytes(folder, name)?;
        let length = 3 * usize::from(d.bitrate);
        let sent: Vec<Vec<u8>> = sent.chunks_exact(length).take(40).map(<[u8]>::to_vec).collect();
        same(["sent", "given by the Rust and ours"], &sent, &frames, || name.to_string())?;
        count += frames.len();
    }
    Ok(count)
}
