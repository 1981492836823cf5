//! A plain program beside `rh_phase_bench`: the least that look-ups of a shared list take. So many threads claim one key after
//! the other from one counter, and do nothing with it, or load the one cell of the table that is the key's home.
//!
//! Arguments: claim|load KEYS THREADS
use std::sync::atomic::{AtomicU64, AtomicUsize, Ordering};
use std::thread;
use std::time::Instant;

const BITS: u32 = 18;

fn home(key: u64) -> usize {
    (key.wrapping_mul(11400714819323198485) >> (64 - BITS)) as usize
}

fn main() {
    let words: Vec<String> = std::env::args().collect();
    let many: usize = words[2].parse().unwrap();
    let threads: usize = words[3].parse().unwrap();
    let loads = words[1] == "load";
    let table: Vec<AtomicU64> = (0..1u64 << BITS).map(AtomicU64::new).collect();
    let next = AtomicUsize::new(0);
    let begin = Instant::now();
    let sum: u64 = thread::scope(|scope| {
        let started: Vec<_> = (0..threads)
            .map(|_| {
                let (table, next) = (&table, &next);
                scope.spawn(move || {
                    let mut sum = 0u64;
                    loop {
                        let at = next.fetch_add(1, Ordering::SeqCst);
                        if at >= many {
                            return sum;
                        }
                        if loads {
                            sum = sum.wrapping_add(table[home(at as u64)].load(Ordering::SeqCst));
                        }
                    }
                })
            })
            .collect();
        started.into_iter().map(|it| it.join().unwrap()).sum()
    });
    let took = begin.elapsed();
    eprintln!("{sum}");
    println!("{many} keys in {} microseconds", took.as_micros());
}
