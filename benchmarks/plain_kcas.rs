//! Plain programs beside `rh_kcas_bench`: the same swaps of several cells, under one mutex, or by the protocol of Harris,
//! Fraser and Pratt (2002) over `AtomicU64`, written by hand and unproved.
//!
//! Arguments: mutex|atomic THREADS ENTRIES own|same ROUNDS
use std::sync::atomic::{AtomicU64, Ordering::SeqCst};
use std::sync::Mutex;
use std::time::{Duration, Instant};

const MOST: usize = 8;
/// So many cells are each thread's own, two lines of a cache.
const OWN: usize = 16;
const CELLS: usize = 128;
/// How many entries the swaps that a thread tries in one round have together.
const ENTRIES: usize = 4_000;

#[derive(Clone, Copy, Default)]
struct Entry {
    cell: usize,
    old: u64,
    new: u64,
}

/// What threads share: a swap of several values, and the value of a cell.
trait Swaps: Sync {
    fn kcas(&self, me: &mut Me, entries: &[Entry]) -> bool;
    fn read(&self, me: &mut Me, cell: usize) -> u64;
    fn wipe(&mut self);
}

/// One thread: its number, and the serial numbers of its next descriptor and its next mark.
struct Me {
    worker: usize,
    descriptors: u64,
    marks: u64,
}

struct Locked {
    cells: Mutex<Vec<u64>>,
}

impl Swaps for Locked {
    fn kcas(&self, _me: &mut Me, entries: &[Entry]) -> bool {
        let mut cells = self.cells.lock().unwrap();
        if entries.iter().any(|e| cells[e.cell] != e.old) {
            return false;
        }
        entries.iter().for_each(|e| cells[e.cell] = e.new);
        true
    }

    fn read(&self, _me: &mut Me, cell: usize) -> u64 {
        self.cells.lock().unwrap()[cell]
    }

    fn wipe(&mut self) {}
}

// A word: a value times four, or a reference (worker, serial number) with a tag: 1 for a mark, 2 for a descriptor.
const MARK: u64 = 1;
const DESC: u64 = 2;
// A control: a serial number times four, and one of these.
const UNDECIDED: u64 = 1;
const SUCCEEDED: u64 = 2;
const FAILED: u64 = 3;

fn word(worker: usize, number: u64, tag: u64) -> u64 {
    ((worker as u64) << 56 | number) << 2 | tag
}

fn worker_of(word: u64) -> usize {
    (word >> 58) as usize
}

fn number_of(word: u64) -> u64 {
    word >> 2 & ((1 << 56) - 1)
}

/// The words of one entry.
#[derive(Default)]
struct EntryRow {
    cell: AtomicU64,
    old: AtomicU64,
    new: AtomicU64,
}

/// A worker's rows: one for all its descriptors, and one for all its marks.
// (No two workers have words in one cache line.)
#[repr(align(128))]
#[derive(Default)]
struct Rows {
    control: AtomicU64,
    serial: AtomicU64,
    length: AtomicU64,
    entries: [EntryRow; MOST],
    mark_serial: AtomicU64,
    mark_desc: AtomicU64,
    mark_entry: AtomicU64,
}

impl Rows {
    /// Whether the row is of this descriptor: then what was read in it before was too.
    fn is_of(&self, desc: u64) -> bool {
        self.serial.load(SeqCst) == number_of(desc)
    }

    /// How the descriptor stands, or nothing where its worker has gone on to a later one.
    fn state(&self, desc: u64) -> Option<u64> {
        let control = self.control.load(SeqCst);
        (control >> 2 == number_of(desc)).then_some(control & 3)
    }

    /// The cell and the old and the new value of an entry.
    fn entry(&self, desc: u64, entry: usize) -> Option<(usize, u64, u64)> {
        let row = &self.entries[entry];
        let read = (row.cell.load(SeqCst) as usize, row.old.load(SeqCst), row.new.load(SeqCst));
        self.is_of(desc).then_some(read)
    }
}

struct Shared {
    cells: Vec<AtomicU64>,
    rows: Vec<Rows>,
}

fn swap(word: &AtomicU64, old: u64, new: u64) -> u64 {
    word.compare_exchange(old, new, SeqCst, SeqCst).unwrap_or_else(|found| found)
}

impl Shared {
    fn new(workers: usize) -> Shared {
        Shared {
            cells: (0..CELLS).map(|_| AtomicU64::new(0)).collect(),
            rows: (0..workers).map(|_| Rows::default()).collect(),
        }
    }

    fn rows_of(&self, desc: u64) -> &Rows {
        &self.rows[worker_of(desc)]
    }

    /// Settles a mark that was met: to its descriptor where that is undecided, else to the old value. Where its row or that of
    /// its descriptor has gone on, its worker settles it.
    fn settle(&self, mark: u64, cell: usize) {
        let row = self.rows_of(mark);
        let (desc, entry) = (row.mark_desc.load(SeqCst), row.mark_entry.load(SeqCst) as usize);
        if row.mark_serial.load(SeqCst) != number_of(mark) {
            return;
        }
        let to = match self.rows_of(desc).state(desc) {
            None => return,
            Some(UNDECIDED) => desc,
            Some(_) => match self.rows_of(desc).entry(desc, entry) {
                None => return,
                Some((_, old, _)) => old,
            },
        };
        swap(&self.cells[cell], mark, to);
    }

    /// Brings the descriptor into a cell that holds the old value; answers the word that it found there.
    fn restricted(&self, me: &mut Me, desc: u64, entry: usize, cell: usize, old: u64) -> u64 {
        let row = &self.rows[me.worker];
        row.mark_serial.store(me.marks, SeqCst);
        row.mark_desc.store(desc, SeqCst);
        row.mark_entry.store(entry as u64, SeqCst);
        let mark = word(me.worker, me.marks, MARK);
        loop {
            let found = swap(&self.cells[cell], old, mark);
            if found & 3 == MARK {
                self.settle(found, cell);
                continue;
            }
            if found == old {
                me.marks += 1;
                let undecided = self.rows_of(desc).state(desc) == Some(UNDECIDED);
                swap(&self.cells[cell], mark, if undecided { desc } else { old });
            }
            return found;
        }
    }

    /// Finishes a descriptor; whether it succeeded, or nothing where its worker has gone on.
    fn help(&self, me: &mut Me, desc: u64) -> Option<bool> {
        let row = self.rows_of(desc);
        let mut state = row.state(desc)?;
        let length = row.length.load(SeqCst) as usize;
        if !row.is_of(desc) {
            return None;
        }
        if state == UNDECIDED {
            let result = self.hold(me, desc, length)?;
            let first = number_of(desc) << 2;
            swap(&row.control, first | UNDECIDED, first | result);
            state = row.state(desc)?;
        }
        for entry in 0..length {
            let (cell, old, new) = row.entry(desc, entry)?;
            swap(&self.cells[cell], desc, if state == SUCCEEDED { new } else { old });
        }
        Some(state == SUCCEEDED)
    }

    fn hold(&self, me: &mut Me, desc: u64, length: usize) -> Option<u64> {
        let row = self.rows_of(desc);
        for entry in 0..length {
            let (cell, old, _) = row.entry(desc, entry)?;
            loop {
                let found = self.restricted(me, desc, entry, cell, old);
                if found == old {
                    // (a late Settle may have put it there once it failed, or was left)
                    match row.state(desc) {
                        Some(UNDECIDED | SUCCEEDED) => {}
                        state => {
                            swap(&self.cells[cell], desc, old);
                            state?;
                        }
                    }
                }
                if found == desc || found == old {
                    break;
                }
                if found & 3 != DESC {
                    return Some(FAILED);
                }
                self.help(me, found);
            }
        }
        Some(SUCCEEDED)
    }
}

impl Swaps for Shared {
    fn kcas(&self, me: &mut Me, entries: &[Entry]) -> bool {
        let desc = word(me.worker, me.descriptors, DESC);
        let row = &self.rows[me.worker];
        row.serial.store(me.descriptors, SeqCst);
        row.length.store(entries.len() as u64, SeqCst);
        for (row, entry) in row.entries.iter().zip(entries) {
            row.cell.store(entry.cell as u64, SeqCst);
            row.old.store(entry.old << 2, SeqCst);
            row.new.store(entry.new << 2, SeqCst);
        }
        row.control.store(me.descriptors << 2 | UNDECIDED, SeqCst);
        me.descriptors += 1;
        self.help(me, desc).expect("an own descriptor does not go on")
    }

    fn read(&self, me: &mut Me, cell: usize) -> u64 {
        loop {
            let found = self.cells[cell].load(SeqCst);
            match found & 3 {
                MARK => self.settle(found, cell),
                DESC => drop(self.help(me, found)),
                _ => return found >> 2,
            }
        }
    }

    fn wipe(&mut self) {
        self.rows.iter_mut().for_each(|row| *row = Rows::default());
    }
}

/// Raises the cells from this one on, time after time.
fn raise_often(shared: &dyn Swaps, me: &mut Me, first: usize, count: usize) -> u64 {
    let mut entries = [Entry::default(); MOST];
    let mut done = 0;
    let mut seen = false;
    for _ in 0..ENTRIES / count {
        for (i, entry) in entries[..count].iter_mut().enumerate() {
            let cell = first + i;
            let old = if seen { entry.new } else { shared.read(me, cell) };
            *entry = Entry { cell, old, new: old + 1 };
        }
        seen = shared.kcas(me, &entries[..count]);
        done += seen as u64;
    }
    done
}

fn main() {
    let words: Vec<String> = std::env::args().collect();
    let [_, kind, threads, count, cells, rounds] = &words[..] else { panic!("mutex|atomic THREADS ENTRIES own|same ROUNDS") };
    let (threads, count, rounds): (usize, usize, u32) = (threads.parse().unwrap(), count.parse().unwrap(), rounds.parse().unwrap());
    let mut shared: Box<dyn Swaps> = match kind.as_str() {
        "mutex" => Box::new(Locked { cells: Mutex::new(vec![0; CELLS]) }),
        _ => Box::new(Shared::new(threads)),
    };
    let mut all = (0, Duration::ZERO);
    let mut fastest = (0, Duration::MAX);
    for _ in 0..rounds {
        let told: Vec<(u64, Duration)> = std::thread::scope(|scope| {
            let all: Vec<_> = (0..threads)
                .map(|worker| {
                    let shared = &*shared;
                    scope.spawn(move || {
                        let mut me = Me { worker, descriptors: 0, marks: 0 };
                        let first = if cells == "own" { worker * OWN } else { 0 };
                        let start = Instant::now();
                        let done = raise_often(shared, &mut me, first, count);
                        (done, start.elapsed())
                    })
                })
                .collect();
            all.into_iter().map(|thread| thread.join().unwrap()).collect()
        });
        let (done, took) = (told.iter().map(|it| it.0).sum::<u64>(), told.iter().map(|it| it.1).sum::<Duration>());
        all = (all.0 + done, all.1 + took);
        if took < fastest.1 {
            fastest = (done, took);
        }
        shared.wipe();
    }
    println!("{} swaps in {} ns, {} in {} ns", all.0, all.1.as_nanos(), fastest.0, fastest.1.as_nanos());
}
