//! The example in C, run as it stands: its frames are those sent, and its bad call is refused.

use super::Run;
use crate::air::{Air, Kind};
use crate::description::Description;
use crate::random::Random;
use crate::recordings::{self, sub_channels};
use crate::samples::{anywhere_in_cif, shapes};
use crate::tally::{Outcome, Tally, same};
use std::fs::File;
use std::io::Write;
use std::process::{Command, Output, Stdio};

pub fn compare(run: &Run, tally: &mut Tally) -> Outcome {
    let mut random = run.random("example");
    let shapes: Vec<Description> = shapes().into_iter().filter(|d| d.bitrate <= 192).collect();
    for _ in 0..run.times(6, 60) {
        let d = anywhere_in_cif(random.pick(&shapes), &mut random);
        let (recording, frames) = recorded(&d, 20, &mut random);
        one(&d, &recording, &frames, tally)?;
    }
    // It ends within a symbol; it is too short for a frame; a size is wrong.
    let d = Description::eep(0, 3, 8).sized(4).at(7);
    let (recording, frames) = recorded(&d, 20, &mut random);
    one(&d, &recording[..recording.len() - 1], &frames[..frames.len() - 24], tally)?;
    one(&d, &recording[..100_000], &[], tally)?;
    refused(&d.sized(5), "set-up: refused with 5", tally)?;
    // Few frames, which are first written at the end, and more than are kept back.
    unwritten(&d, &recording, tally)?;
    let d = Description::eep(0, 2, 192).sized(144).at(0);
    unwritten(&d, &recorded(&d, 32, &mut random).0, tally)?;

    let Some(folder) = &run.recordings else {
        tally.note = format!("recordings not run, {}", recordings::NOT_AT_HAND);
        return Ok(());
    };
    for (name, d) in sub_channels() {
        let sent = recordings::bytes(folder, name)?;
        let whole = 40 * 3 * usize::from(d.bitrate);
        one(&d, &recordings::bytes(folder, "ensemble.soft")?, &sent[..whole], tally)?;
    }
    Ok(())
}

/// Transmission frames with a sub-channel in them, and the frames that a receiver gives.
fn recorded(d: &Description, cifs: usize, random: &mut Random) -> (Vec<u8>, Vec<u8>) {
    let (mut air, mut sent, mut recording) = (Air::new(d), Vec::new(), Vec::new());
    for n in 0..cifs {
        if n % 4 == 0 {
            recording.extend(random.bytes(3 * 3_072));
        }
        let (cif, frame) = air.cif(Kind::Clean, random);
        recording.extend(cif.iter().map(|value| *value as u8));
        sent.push(frame);
    }
    (recording, sent[..cifs - 16].concat())
}

fn one(d: &Description, recording: &[u8], frames: &[u8], tally: &mut Tally) -> Outcome {
    let output = example(d, recording, Stdio::piped())?;
    let input = || format!("{d:?}, a recording of {} values", recording.len());
    same(["an exit status of", "the example's"], Some(0), output.status.code(), input)?;
    told(&output, "refused with 7")?;
    tally.compared += 1;
    same(["sent", "the example's"], frames, &output.stdout[..], input)
}

fn refused(d: &Description, text: &str, tally: &mut Tally) -> Outcome {
    failed(d, &example(d, &[], Stdio::piped())?, text, tally)
}

/// Frames that a full disk does not take.
fn unwritten(d: &Description, recording: &[u8], tally: &mut Tally) -> Outcome {
    let full = File::options().write(true).open("/dev/full").map_err(|e| format!("/dev/full: {e}"))?;
    failed(d, &example(d, recording, Stdio::from(full))?, "the frames are not written", tally)
}

fn failed(d: &Description, output: &Output, text: &str, tally: &mut Tally) -> Outcome {
    told(output, text)?;
    tally.compared += 1;
    same(["an exit status of", "the example's"], Some(1), output.status.code(), || format!("{d:?}"))
}

fn told(output: &Output, text: &str) -> Outcome {
    let said = String::from_utf8_lossy(&output.stderr);
    if said.contains(text) { Ok(()) } else { Err(format!("the example does not say '{text}': {said}")) }
}

/// The program beside this one, with the recording as its standard input.
fn example(d: &Description, recording: &[u8], frames: Stdio) -> Result<Output, String> {
    let here = std::env::current_exe().map_err(|e| e.to_string())?;
    let numbers = [d.start_addr, d.sub_size, d.bitrate, d.protection_level.into(), d.eep_option.into()];
    let mut command = Command::new(here.with_file_name("example"));
    command.args(numbers.map(|n| n.to_string())).arg(u8::from(d.is_eep()).to_string());
    command.stdin(Stdio::piped()).stdout(frames).stderr(Stdio::piped());
    let mut child = command.spawn().map_err(|e| format!("the example does not start: {e}"))?;
    let mut input = child.stdin.take().unwrap();
    std::thread::scope(|scope| {
        // It may end before it has read all.
        scope.spawn(move || input.write_all(recording));
        child.wait_with_output().map_err(|e| e.to_string())
    })
}
