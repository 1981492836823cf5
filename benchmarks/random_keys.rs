// Writes a key file of COUNT random keys, each another, from a fixed seed: `random_keys COUNT > FILE`.
use std::collections::HashSet;
use std::io::{self, BufWriter, Write};

// SplitMix64 (Steele, Lea, Flood 2014).
fn next(state: &mut u64) -> u64 {
    *state = state.wrapping_add(0x9e37_79b9_7f4a_7c15);
    let mut z = *state;
    z = (z ^ (z >> 30)).wrapping_mul(0xbf58_476d_1ce4_e5b9);
    z = (z ^ (z >> 27)).wrapping_mul(0x94d0_49bb_1331_11eb);
    z ^ (z >> 31)
}

fn main() -> io::Result<()> {
    let count: u64 = std::env::args().nth(1).and_then(|n| n.parse().ok()).expect("a count");
    let mut output = BufWriter::new(io::stdout().lock());
    output.write_all(b"RHK2")?;
    output.write_all(&count.to_be_bytes())?;
    let (mut state, mut seen) = (1, HashSet::new());
    while (seen.len() as u64) < count {
        let key = next(&mut state) >> 2;
        if key < (1 << 62) - 1 && seen.insert(key) {
            output.write_all(&key.to_be_bytes())?;
        }
    }
    output.flush()
}
