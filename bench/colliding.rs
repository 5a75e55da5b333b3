//! Prints ids that begin at one group of a hash table, where ids are hashed by the kit's `FoldHasher`
//! from its fixed seed: `colliding COUNT`. The table of 100,000 ids has 2^14 groups.
use std::io::Write;

const SEED: u64 = 0x243f_6a88_85a3_08d3;
const MULTIPLIER: u64 = 0x9e37_79b9_7f4a_7c15;
const GROUPS: u32 = 1 << 14;

/// The group of an id: four bytes are written, and the halves of the hash joined.
fn group(id: u32) -> u32 {
    let short = u64::from(id) | u64::from(id) << 32;
    let product = u128::from(SEED ^ short) * u128::from(MULTIPLIER ^ 8);
    let hash = product as u64 ^ (product >> 64) as u64;
    (hash ^ hash >> 32) as u32 & (GROUPS - 1)
}

fn main() {
    let count = std::env::args().nth(1).and_then(|n| n.parse().ok()).unwrap_or(0);
    let mut out = std::io::BufWriter::new(std::io::stdout().lock());
    for id in (1..=2_147_483_647).filter(|id| group(*id) == 0).take(count) {
        writeln!(out, "{id}").unwrap();
    }
}
