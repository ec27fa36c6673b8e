//! The program `fic` beside the Rust in the same shape: the same standard input, the same output.

use crate::checks::Run;
use crate::checks::process_fic::block;
use crate::random::Random;
use crate::recordings;
use crate::tally::{Outcome, same};
use std::fs::File;
use std::io::{Read, Write};
use std::path::{Path, PathBuf};
use std::process::{Child, Command, ExitStatus, Stdio};
use std::time::{Duration, Instant};

const FRAME: usize = 9_216;
const AT_ONCE: usize = 1 << 20;

/// All that the three recordings hold, in bytes: an empty one is not to be found the same.
const RECORDED: u64 = 129_024 + 134_024 + 3_225_600;

/// Longer than any input takes here.
const PATIENCE: Duration = Duration::from_secs(120);

struct Programs {
    ours: PathBuf,
    rust: PathBuf,
    compared: u64,
    bytes: u64,
}

/// The whole comparison; its last line counts it as one.
pub fn compare(program: &Path, run: &Run) -> Outcome {
    let here = std::env::current_exe().map_err(|e| e.to_string())?;
    let (ours, rust) = (program.to_path_buf(), here.with_file_name("rust_fic"));
    let mut programs = Programs { ours, rust, compared: 0, bytes: 0 };
    let mut random = run.random("fic");
    programs.long_files(run, &mut random)?;
    programs.ends(run, &mut random)?;
    programs.pieces(run, &mut random)?;
    match &run.recordings {
        Some(folder) => programs.recordings(folder)?,
        None => println!("fic, recordings: not run, {}", recordings::NOT_AT_HAND),
    }
    programs.failed_writes(&mut random)?;
    println!("fic: {} inputs of {} bytes in all, the same output", programs.compared, programs.bytes);
    Ok(())
}

/// So many sets of three symbols, clean, noisy and random blocks among them.
fn frames(count: usize, random: &mut Random) -> Vec<u8> {
    (0..4 * count).flat_map(|_| block(random)).map(|value| value as u8).collect()
}

impl Programs {
    /// Several megabytes, each with another end.
    fn long_files(&mut self, run: &Run, random: &mut Random) -> Outcome {
        for _ in 0..run.times(1, 6) {
            let mut input = frames(400 + random.below(100), random);
            let end = random.below(FRAME);
            input.extend(random.bytes(end));
            self.same(&input, AT_ONCE)?;
        }
        Ok(())
    }

    /// No frame or one, and an end of every length (of some lengths, in a quick run).
    fn ends(&mut self, run: &Run, random: &mut Random) -> Outcome {
        let whole = frames(2, random);
        let named = [0, 1, 2, 2_303, 2_304, 2_305, 3_071, 3_072, 3_073, 4_096, 6_143, 6_144, 6_145, 9_214, 9_215];
        let every = (0..FRAME).step_by(run.times(211, 1));
        for end in named.into_iter().chain(every) {
            self.same(&whole[..end], AT_ONCE)?;
            self.same(&whole[..FRAME + end], AT_ONCE)?;
        }
        Ok(())
    }

    /// Input that comes in pieces, so that a read gives less than was asked for.
    fn pieces(&mut self, run: &Run, random: &mut Random) -> Outcome {
        for piece in [1, 7, 512, 1_000, 3_071, 3_072, 4_096, 4_097, 9_215, 9_216, 9_217, 65_536] {
            for _ in 0..run.times(1, 5) {
                let mut input = frames(3, random);
                let end = random.below(FRAME);
                input.extend(random.bytes(end));
                self.same(&input, piece)?;
            }
        }
        Ok(())
    }

    fn recordings(&mut self, folder: &Path) -> Outcome {
        let before = self.bytes;
        for (name, fibs) in [("fic.soft", "ensemble.fibs"), ("fic-damaged.soft", "fic-damaged.fibs")] {
            let (input, fibs) = (recordings::bytes(folder, name)?, recordings::bytes(folder, fibs)?);
            self.same(&input, AT_ONCE)?;
            let given = output_of(&self.ours, &input, AT_ONCE)?.0;
            same(["the recording's FIBs", "ours"], fibs, given, || name.to_string())?;
        }
        // The whole ensemble, FIC or not.
        self.same(&recordings::bytes(folder, "ensemble.soft")?, 50_000)?;
        same(["bytes of recordings", "compared"], RECORDED, self.bytes - before, || folder.display().to_string())
    }

    /// Output that cannot be written ends the program, however much input is left.
    fn failed_writes(&mut self, random: &mut Random) -> Outcome {
        let input = frames(2, random);
        for full in [true, false] {
            let (output, name) = if full {
                let full = File::options().write(true).open("/dev/full").map_err(|e| format!("/dev/full: {e}"))?;
                (Stdio::from(full), "a full disk")
            } else {
                (Stdio::piped(), "a closed pipe")
            };
            let mut child = start(&self.ours, Stdio::piped(), output)?;
            drop(child.stdout.take());
            let mut to = child.stdin.take().unwrap();
            let begun = Instant::now();
            while to.write_all(&input).is_ok() {
                if begun.elapsed() > PATIENCE {
                    stop(&mut child);
                    return Err(format!("fic reads on though its output goes to {name}"));
                }
            }
            ended(&mut child)?;
            self.compared += 1;
        }
        Ok(())
    }

    fn same(&mut self, input: &[u8], piece: usize) -> Outcome {
        let ours = output_of(&self.ours, input, piece)?;
        let rust = output_of(&self.rust, input, piece)?;
        let told = || format!("{} bytes of input in pieces of at most {piece}", input.len());
        same(["the Rust", "ours"], &rust.0, &ours.0, told)?;
        same(["an exit status of", "ours"], Some(0), ours.1.code(), told)?;
        self.compared += 1;
        self.bytes += input.len() as u64;
        Ok(())
    }
}

fn start(program: &Path, input: Stdio, output: Stdio) -> Result<Child, String> {
    let child = Command::new(program).stdin(input).stdout(output).spawn();
    child.map_err(|e| format!("{}: {e}", program.display()))
}

/// What a program writes when it is given `input`, so many bytes at a time.
fn output_of(program: &Path, input: &[u8], piece: usize) -> Result<(Vec<u8>, ExitStatus), String> {
    let mut child = start(program, Stdio::piped(), Stdio::piped())?;
    let (mut to, mut from) = (child.stdin.take().unwrap(), child.stdout.take().unwrap());
    let mut output = Vec::new();
    let status = std::thread::scope(|scope| {
        scope.spawn(move || input.chunks(piece).all(|part| to.write_all(part).is_ok()));
        scope.spawn(|| from.read_to_end(&mut output));
        ended(&mut child)
    })?;
    Ok((output, status))
}

/// Waits for a program, not for ever.
fn ended(child: &mut Child) -> Result<ExitStatus, String> {
    let begun = Instant::now();
    loop {
        if let Some(status) = child.try_wait().map_err(|e| e.to_string())? {
            return Ok(status);
        }
        if begun.elapsed() > PATIENCE {
            stop(child);
            return Err("the program does not end".to_string());
        }
        std::thread::sleep(Duration::from_micros(300));
    }
}

fn stop(child: &mut Child) {
    // It may have ended by itself.
    let _ = child.kill();
    let _ = child.wait();
}
