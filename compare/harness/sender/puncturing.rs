//! Which bits of the mother code word are sent: clauses 11.1.2, 11.2 and 11.3.

use super::uep_rows::ROWS;
use crate::description::Description;

/// Groups of four in the order in which a vector of one more keeps one more of their places.
const GROUPS: [usize; 8] = [0, 4, 2, 6, 1, 5, 3, 7];

/// Whether vector PI, 1 to 24, keeps a place of 32: the first of each group of four always, then
/// second places, then third, then fourth ones.
fn keeps(pi: usize, place: usize) -> bool {
    let (group, nth) = (place / 4, place % 4);
    let turn = GROUPS.iter().position(|g| *g == group).unwrap();
    nth == 0 || 8 * (nth - 1) + turn < pi
}

/// Blocks of 128 with their vector, region by region.
pub type Regions = Vec<(usize, usize)>;

/// The FIC's, mode I.
pub fn fic() -> Regions {
    vec![(21, 16), (3, 15)]
}

/// A sub-channel's, for a description that is accepted. (2-A at 8 kbit/s, which the standard gives a
/// row of its own, is not.)
pub fn msc(d: &Description) -> Regions {
    if !d.is_eep() {
        let row = ROWS.iter().find(|row| (row.bitrate, row.level) == (d.bitrate, d.protection_level));
        let row = row.expect("a row of the standard's table");
        return (0..4).filter(|i| row.l[*i] > 0).map(|i| (row.l[i], row.pi[i])).collect();
    }
    let n = usize::from(d.bitrate) / if d.eep_option == 0 { 8 } else { 32 };
    match (d.eep_option, d.protection_level) {
        (0, 0) => vec![(6 * n - 3, 24), (3, 23)],
        (0, 1) => vec![(2 * n - 3, 14), (4 * n + 3, 13)],
        (0, 2) => vec![(6 * n - 3, 8), (3, 7)],
        (0, 3) => vec![(4 * n - 3, 3), (2 * n + 3, 2)],
        (1, level @ 0..=3) => {
            let pi = [10, 6, 4, 2][usize::from(level)];
            vec![(24 * n - 3, pi), (3, pi - 1)]
        }
        other => panic!("no such option and level: {other:?}"),
    }
}

/// By place of the mother code word, tail included: whether it is sent.
pub fn kept(regions: &Regions) -> Vec<bool> {
    let blocks = regions.iter().flat_map(|&(blocks, pi)| (0..128 * blocks).map(move |i| keeps(pi, i % 32)));
    blocks.chain((0..24).map(|i| i % 4 < 2)).collect()
}
