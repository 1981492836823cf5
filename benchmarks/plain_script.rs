// What four scripts do, as a plain program without proofs, to measure beside: `add`, `ask`, `keep` and `flip` of key files
// in one Robin Hood table. It keeps each list in memory, and reads each file once.
use std::fs;
use std::io::{self, BufWriter, Write};

const MULTIPLIER: u64 = 11400714819323198485;

struct Table {
    bits: u32,
    cells: Vec<u64>,
    held: u64,
}

impl Table {
    fn new(bits: u32) -> Table {
        Table { bits, cells: vec![0; 1 << bits], held: 0 }
    }

    fn home(&self, key: u64) -> usize {
        (key.wrapping_mul(MULTIPLIER) >> (64 - self.bits)) as usize
    }

    fn dist(&self, cell: usize, key: u64) -> usize {
        cell.wrapping_sub(self.home(key)) & (self.cells.len() - 1)
    }

    // The key's cell, or the cell where it goes.
    fn place(&self, key: u64) -> (usize, bool) {
        let (mut cell, mut far) = (self.home(key), 0);
        loop {
            let held = self.cells[cell];
            if held == 0 {
                return (cell, false);
            }
            if held == key + 1 {
                return (cell, true);
            }
            let other = self.dist(cell, held - 1);
            if other < far || (other == far && held - 1 > key) {
                return (cell, false);
            }
            cell = (cell + 1) & (self.cells.len() - 1);
            far += 1;
        }
    }

    fn insert(&mut self, key: u64) -> bool {
        let (mut cell, there) = self.place(key);
        if there {
            return false;
        }
        let mut carry = key + 1;
        while carry != 0 {
            std::mem::swap(&mut self.cells[cell], &mut carry);
            cell = (cell + 1) & (self.cells.len() - 1);
        }
        self.held += 1;
        true
    }

    fn remove(&mut self, key: u64) -> bool {
        let (mut cell, there) = self.place(key);
        if !there {
            return false;
        }
        loop {
            let next = (cell + 1) & (self.cells.len() - 1);
            let held = self.cells[next];
            if held == 0 || self.dist(next, held - 1) == 0 {
                break;
            }
            self.cells[cell] = held;
            cell = next;
        }
        self.cells[cell] = 0;
        self.held -= 1;
        true
    }

    fn grown(&self, more: u64) -> Table {
        let bits = (self.bits..=18).find(|b| 4 * (self.held + more) <= 3 << b).expect("room");
        let mut table = Table::new(bits);
        for held in self.cells.iter().filter(|held| **held != 0) {
            table.insert(held - 1);
        }
        table
    }
}

fn keys(path: &str) -> io::Result<Vec<u64>> {
    let bytes = fs::read(path)?;
    Ok(bytes[12..].chunks_exact(8).map(|b| u64::from_be_bytes(b.try_into().unwrap())).collect())
}

fn main() -> io::Result<()> {
    let words: Vec<String> = std::env::args().collect();
    let mut output = BufWriter::new(io::stdout().lock());
    let list = keys(&words[2])?;
    writeln!(output, "use k {}", list.len())?;
    let asked = words.get(3).map(|path| keys(path)).transpose()?;
    if let Some(asked) = &asked {
        writeln!(output, "use m {}", asked.len())?;
    }
    let mut table = Table::new(3).grown(list.len() as u64);
    let added = list.iter().filter(|key| table.insert(**key)).count();
    let (held, bits) = (table.held, table.bits);
    writeln!(output, "add k read {} added {added} held {held} bits {bits}", list.len())?;
    if let Some(asked) = &asked {
        let answers: Vec<bool> = asked.iter().map(|key| table.place(*key).1).collect();
        let found = answers.iter().filter(|there| **there).count();
        writeln!(output, "ask m read {} found {found}", asked.len())?;
        for line in answers.chunks(64) {
            let digits: Vec<u8> = line.iter().map(|there| b'0' + u8::from(*there)).collect();
            output.write_all(&digits)?;
            output.write_all(b"\n")?;
        }
    }
    if words[1] == "keep" {
        let found: Vec<u64> = list.iter().copied().filter(|key| table.place(*key).1).collect();
        let mut table = Table::new(3).grown(found.len() as u64);
        found.iter().for_each(|key| {
            table.insert(*key);
        });
        let (held, bits) = (table.held, table.bits);
        writeln!(
            output,
            "keep k read {} found {} held {held} bits {bits}",
            list.len(),
            found.len()
        )?;
    }
    if words[1] == "flip" {
        let others: Vec<u64> = list.iter().copied().filter(|key| !table.place(*key).1).collect();
        let removed = list.iter().filter(|key| table.remove(**key)).count();
        let mut table = table.grown(others.len() as u64);
        let added = others.iter().filter(|key| table.insert(**key)).count();
        let (held, bits) = (table.held, table.bits);
        writeln!(
            output,
            "flip k read {} removed {removed} added {added} held {held} bits {bits}",
            list.len()
        )?;
    }
    output.flush()
}
