//! A plain program beside `rh_phase_bench`: the same phases on a set of the standard library, cut into 64 parts with a
//! mutex round each, by so many threads that each take a piece of the list.
//!
//! Arguments: insert|ask|remove KEYS THREADS
use std::collections::HashSet;
use std::sync::Mutex;
use std::thread;
use std::time::Instant;

const PARTS: usize = 64;

fn part(key: u64) -> usize {
    (key.wrapping_mul(11400714819323198485) >> 58) as usize
}

/// The same keys as those of `rh_phase_bench`.
fn keys(many: usize) -> Vec<u64> {
    let mut state = 1u64;
    (0..many)
        .map(|_| {
            state = state.wrapping_mul(6_364_136_223_846_793_005).wrapping_add(1_442_695_040_888_963_407);
            (state >> 33) % (1 << 31)
        })
        .collect()
}

fn main() {
    let words: Vec<String> = std::env::args().collect();
    let keys = keys(words[2].parse().unwrap());
    let threads: usize = words[3].parse().unwrap();
    let parts: Vec<Mutex<HashSet<u64>>> = (0..PARTS).map(|_| Mutex::new(HashSet::with_capacity(1 << 12))).collect();
    if words[1] != "insert" {
        for key in &keys {
            parts[part(*key)].lock().unwrap().insert(*key);
        }
    }
    let begin = Instant::now();
    let changed: usize = thread::scope(|scope| {
        let started: Vec<_> = keys
            .chunks(keys.len().div_ceil(threads).max(1))
            .map(|piece| {
                let (parts, kind) = (&parts, words[1].as_str());
                scope.spawn(move || {
                    let one = |key: &u64| {
                        let mut held = parts[part(*key)].lock().unwrap();
                        match kind {
                            "insert" => held.insert(*key),
                            "remove" => held.remove(key),
                            _ => held.contains(key),
                        }
                    };
                    piece.iter().filter(|key| one(key)).count()
                })
            })
            .collect();
        started.into_iter().map(|it| it.join().unwrap()).sum()
    });
    let took = begin.elapsed();
    eprintln!("{changed} changed or found");
    println!("{} keys in {} microseconds", keys.len(), took.as_micros());
}
