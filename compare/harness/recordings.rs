//! Soft values made by another transmitter, where they are at hand.

use crate::description::Description;
use std::path::Path;

/// What a comparison says that goes without them.
pub const NOT_AT_HAND: &str = "no recordings at hand";

/// A sub-channel of the recorded ensemble, by the name of its file of frames.
pub fn sub_channels() -> [(&'static str, Description); 3] {
    [
        ("ensemble.sub01.frames", Description::eep(0, 2, 96).sized(72).at(0)),
        ("ensemble.sub05.frames", Description::uep(3, 128).sized(96).at(100)),
        ("ensemble.sub09.frames", Description::eep(1, 2, 64).sized(36).at(300)),
    ]
}

pub fn bytes(folder: &Path, name: &str) -> Result<Vec<u8>, String> {
    let path = folder.join(name);
    std::fs::read(&path).map_err(|e| format!("{}: {e}", path.display()))
}

pub fn soft(folder: &Path, name: &str) -> Result<Vec<i8>, String> {
    Ok(bytes(folder, name)?.into_iter().map(|byte| byte as i8).collect())
}

/// The symbols of a transmission frame: three of FIC, then 72 of MSC.
pub const FIC_VALUES: usize = 3 * 3_072;
pub const FRAME_VALUES: usize = 75 * 3_072;
