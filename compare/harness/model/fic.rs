//! Three symbols to FIBs as document 01 has it, with every lent byte after the call.

use super::fib::{bit_test, packed};
use super::quality::{percent, sum};
use super::trellis::Trellis;
use crate::sender::{dispersed, puncturing};
use crate::stores::{FicStores, Percent};

/// 11, then 8, or what the call leaves.
pub fn process(symbols: [&[i8]; 3], before: &FicStores) -> (u8, FicStores) {
    let mut after = before.clone();
    if symbols.iter().any(|soft| soft.len() > 3_072) {
        return (11, after);
    }
    let joined = symbols.concat();
    let blocks: Vec<&[i8]> = joined.chunks_exact(2_304).collect();
    let short = before.depunctured.len() < 3_096
        || before.words.len() < 774
        || before.bits.len() < 774
        || before.fibs.len() < 96 * blocks.len()
        || before.counts.len() < 5
        || before.metrics.len() < 8
        || before.percents.len() < 4;
    if short {
        return (8, after);
    }
    after.counts[..5].fill(0);
    after.metrics[..8].fill(0);
    after.percents[..4].fill(Percent(0.0));
    let kept = puncturing::kept(&puncturing::fic());
    for (k, block) in blocks.into_iter().enumerate() {
        decode(k, &spread(block, &kept), &mut after);
    }
    (0, after)
}

/// Block k: its work buffers, which the next block takes over, its FIBs and its record.
fn decode(k: usize, depunctured: &[i8], after: &mut FicStores) {
    let trellis = Trellis::of(depunctured);
    let (decoded, metric, _) = trellis.to(0);
    let bits = [dispersed(&decoded[..768]), decoded[768..].to_vec()].concat();
    for fib in bits[..768].chunks(256).filter(|fib| bit_test(fib)) {
        let passed = after.counts[0] as usize;
        after.fibs[32 * passed..][..32].copy_from_slice(&packed(fib));
        after.counts[0] += 1;
        after.counts[1 + k] += 1;
    }
    after.metrics[k] = metric as i32;
    after.metrics[4 + k] = sum(depunctured);
    after.percents[k] = percent(after.metrics[k], after.metrics[4 + k]);
    after.depunctured[..3_096].copy_from_slice(depunctured);
    after.words[..774].copy_from_slice(&trellis.words);
    after.bits[..774].copy_from_slice(&bits);
}

/// Received values at the kept places, 0 at the others and where values are missing.
pub fn spread(values: &[i8], kept: &[bool]) -> Vec<i8> {
    let mut values = values.iter();
    kept.iter().map(|kept| if *kept { *values.next().unwrap_or(&0) } else { 0 }).collect()
}
