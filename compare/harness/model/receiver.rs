//! Set-up, reset and feeding as document 01 has them, with every lent byte after each call.

use super::fib::packed;
use super::fic::spread;
use super::protection::judge;
use super::quality::{percent, sum};
use super::trellis::Trellis;
use crate::description::Description;
use crate::sender::{dispersed, puncturing};
use crate::stores::{Places, RING, STATE, Stores, needs};

/// The places of the state, as the header names them.
pub const SYMBOLS: usize = 0;
pub const CIF_IN_FRAME: usize = 1;
pub const RING_INDEX: usize = 2;
pub const CIF_COUNT: usize = 3;
pub const FRAMES: usize = 4;
pub const DESCRIPTION: usize = 5;

const MAP: [usize; 16] = [0, 8, 4, 12, 2, 10, 6, 14, 1, 9, 5, 13, 3, 11, 7, 15];

/// 1 to 7, then 8.
pub fn set_up(d: &Description, stores: &mut Stores, places: &Places) -> u8 {
    let number = judge(d);
    if number != 0 {
        return number;
    }
    let needs = needs(d);
    if places[RING] < needs[RING] || places[STATE] < needs[STATE] {
        return 8;
    }
    stores.ring[..needs[RING]].fill(0);
    stores.state[..DESCRIPTION].fill(0);
    write(d, &mut stores.state);
    0
}

/// The description's places; the flag is written as 0 or 1.
fn write(d: &Description, state: &mut [u64]) {
    let numbers = [d.start_addr, d.sub_size, d.bitrate, d.protection_level.into(), d.eep_option.into()];
    for (place, number) in state[DESCRIPTION..].iter_mut().zip(numbers) {
        *place = number.into();
    }
    state[10] = d.is_eep().into();
}

/// The description in a state that is not refused by 10.
fn read(state: &[u64]) -> Option<Description> {
    let d = Description {
        start_addr: state[5].try_into().ok()?,
        sub_size: state[6].try_into().ok()?,
        bitrate: state[7].try_into().ok()?,
        protection_level: state[8].try_into().ok()?,
        eep_option: state[9].try_into().ok()?,
        is_eep: u32::from(state[10] != 0),
    };
    let held = state[SYMBOLS] <= 17 && state[CIF_IN_FRAME] <= 3 && state[RING_INDEX] <= 15 && state[CIF_COUNT] <= 17;
    (held && judge(&d) == 0).then_some(d)
}

/// 8 for the state's own places, 10, then 8.
pub fn reset(stores: &mut Stores, places: &Places) -> u8 {
    if places[STATE] < 11 {
        return 8;
    }
    let Some(d) = read(&stores.state) else { return 10 };
    if places[RING] < needs(&d)[RING] {
        return 8;
    }
    set_up(&d, stores, places)
}

/// 8 for a state that is too short to be read, 10, then 8 for any other buffer, the answer's two places among them, 9.
pub fn feed(stores: &mut Stores, soft: &[i8], places: &Places) -> u8 {
    if places[STATE] < 11 {
        return 8;
    }
    let Some(d) = read(&stores.state) else { return 10 };
    if places.iter().zip(needs(&d)).any(|(count, need)| *count < need) {
        return 8;
    }
    if soft.len() < 3_072 {
        return 9;
    }
    write(&d, &mut stores.state);
    let symbol = stores.state[SYMBOLS] as usize;
    stores.cif[3_072 * symbol..][..3_072].copy_from_slice(&soft[..3_072]);
    stores.state[SYMBOLS] = (symbol as u64 + 1) % 18;
    stores.length[0] = 0;
    if symbol == 17 {
        whole_cif(&d, stores);
    }
    0
}

fn whole_cif(d: &Description, stores: &mut Stores) {
    let size = 64 * usize::from(d.sub_size);
    let index = stores.state[RING_INDEX] as usize;
    for i in 0..size {
        let slot = (index + MAP[i % 16]) % 16;
        stores.deinterleaved[i] = stores.ring[slot * size + i];
    }
    let own = &stores.cif[64 * usize::from(d.start_addr)..][..size];
    stores.ring[index * size..][..size].copy_from_slice(own);

    stores.state[CIF_IN_FRAME] = (stores.state[CIF_IN_FRAME] + 1) % 4;
    stores.state[RING_INDEX] = (index as u64 + 1) % 16;
    stores.state[CIF_COUNT] = (stores.state[CIF_COUNT] + 1).min(17);
    if stores.state[CIF_COUNT] == 17 {
        decode(d, stores);
    }
}

fn decode(d: &Description, stores: &mut Stores) {
    let (size, rate) = (64 * usize::from(d.sub_size), usize::from(d.bitrate));
    let kept = puncturing::kept(&puncturing::msc(d));
    let depunctured = spread(&stores.deinterleaved[..size], &kept);
    let trellis = Trellis::of(&depunctured);
    let (mut bits, metric, _) = trellis.to(if d.is_eep() { trellis.best_end() } else { 0 });
    let data = dispersed(&bits[..24 * rate]);
    bits[..24 * rate].copy_from_slice(&data);

    stores.frame[..3 * rate].copy_from_slice(&packed(&data));
    stores.length[0] = 3 * rate as u64;
    stores.percent[0] = percent(metric as i32, sum(&depunctured));
    stores.state[FRAMES] = stores.state[FRAMES].saturating_add(1);
    stores.depunctured[..depunctured.len()].copy_from_slice(&depunctured);
    stores.words[..bits.len()].copy_from_slice(&trellis.words);
    stores.bits[..bits.len()].copy_from_slice(&bits);
}
