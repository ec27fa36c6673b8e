//! The numbers that turn a description away, 1 to 7. The 64 UEP rows are the Rust's, as document
//! 01 has them.

use crate::description::Description;
use crate::theirs::UEP_PROFILES;

/// Values kept by `blocks` blocks under vector PI: four times 8 + PI each.
fn kept(blocks: i64, pi: i64) -> i64 {
    blocks * 4 * (8 + pi)
}

/// The values that a description needs, with the tail's twelve, or why it has no row: 1 to 4.
pub fn needed(d: &Description) -> Result<i64, u8> {
    if !d.is_eep() {
        let row = UEP_PROFILES.iter().find(|p| (p.bitrate, p.level) == (d.bitrate, d.protection_level));
        let regions = |p: &dabradio::fec::uep::UepProfile| {
            (0..4).filter_map(|i| p.pi[i].map(|pi| kept(p.l[i] as i64, pi as i64 + 1))).sum::<i64>()
        };
        return row.map(|p| regions(p) + 12).ok_or(4);
    }
    if d.eep_option > 1 {
        return Err(1);
    }
    if d.protection_level > 3 {
        return Err(2);
    }
    let n = i64::from(d.bitrate) / if d.eep_option == 0 { 8 } else { 32 };
    let (l1, l2, pi1, pi2) = match (d.eep_option, d.protection_level) {
        (0, 0) => (6 * n - 3, 3, 24, 23),
        (0, 1) => (2 * n - 3, 4 * n + 3, 14, 13),
        (0, 2) => (6 * n - 3, 3, 8, 7),
        (0, _) => (4 * n - 3, 2 * n + 3, 3, 2),
        (_, 0) => (24 * n - 3, 3, 10, 9),
        (_, 1) => (24 * n - 3, 3, 6, 5),
        (_, 2) => (24 * n - 3, 3, 4, 3),
        (_, _) => (24 * n - 3, 3, 2, 1),
    };
    if l1 < 0 {
        return Err(3);
    }
    Ok(kept(l1, pi1) + kept(l2, pi2) + 12)
}

/// The number that a lookup gives, 0 for a row: the size of the sub-channel and its place, 5 to 7,
/// are not its business.
pub fn lookup(d: &Description) -> u8 {
    needed(d).err().unwrap_or(0)
}

/// The first number that holds, or 0 for a description that is accepted.
pub fn judge(d: &Description) -> u8 {
    let needed = match needed(d) {
        Ok(needed) => needed,
        Err(number) => return number,
    };
    let over = 64 * i64::from(d.sub_size) - needed;
    let fits = if d.is_eep() { over == 0 } else { (0..=8).contains(&over) };
    let unit = if d.eep_option == 0 { 8 } else { 32 };
    if !fits {
        5
    } else if d.is_eep() && d.bitrate % unit != 0 {
        6
    } else if u32::from(d.start_addr) + u32::from(d.sub_size) > 864 {
        7
    } else {
        0
    }
}
