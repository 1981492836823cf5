//! What `benchmarks/library` times in Rust: two lists of this many random numbers, by the library and by a set of the standard
//! library. Milliseconds, the least of five runs each.

use std::collections::HashSet;
use std::time::Instant;

fn least(mut run: impl FnMut() -> usize) -> (f64, usize) {
    let mut least = f64::INFINITY;
    let mut many = 0;
    for _ in 0..5 {
        let begun = Instant::now();
        many = run();
        least = least.min(begun.elapsed().as_secs_f64() * 1000.0);
    }
    (least, many)
}

fn main() {
    let many: usize = std::env::args().nth(1).unwrap().parse().unwrap();
    let mut state = 88172645463325252u64;
    let mut numbers = || -> Vec<u64> {
        (0..many)
            .map(|_| {
                state ^= state << 13;
                state ^= state >> 7;
                state ^= state << 17;
                state % (2 * many as u64)
            })
            .collect()
    };
    let (first, second) = (numbers(), numbers());
    let (ours, of_ours) = least(|| rhset::intersect(&first, &second).unwrap().len());
    let (plain, of_plain) = least(|| {
        let there: HashSet<u64> = first.iter().copied().collect();
        let both: HashSet<u64> = second.iter().copied().filter(|n| there.contains(n)).collect();
        both.len()
    });
    assert_eq!(of_ours, of_plain);
    println!("Rust: rhset {ours:.0} ms, HashSet {plain:.0} ms");
}
