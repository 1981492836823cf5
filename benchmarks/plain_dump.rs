// What `rhset dump` does, as a plain program without proofs, to measure beside: it reads a key file on
// standard input and writes the table of its keys.
use std::io::{self, BufReader, BufWriter, Read, Write};

const MULTIPLIER: u64 = 11400714819323198485;

fn home(bits: u32, key: u64) -> usize {
    (key.wrapping_mul(MULTIPLIER) >> (64 - bits)) as usize
}

fn dist(bits: u32, cell: usize, key: u64) -> usize {
    cell.wrapping_sub(home(bits, key)) & ((1 << bits) - 1)
}

fn insert(bits: u32, cells: &mut [u64], key: u64) {
    let mask = cells.len() - 1;
    let (mut cell, mut far) = (home(bits, key), 0);
    loop {
        let held = cells[cell];
        if held == 0 {
            break;
        }
        let other = dist(bits, cell, held - 1);
        if held == key + 1 {
            return;
        }
        if other < far || (other == far && held - 1 > key) {
            break;
        }
        cell = (cell + 1) & mask;
        far += 1;
    }
    let mut carry = key + 1;
    while carry != 0 {
        std::mem::swap(&mut cells[cell], &mut carry);
        cell = (cell + 1) & mask;
    }
}

fn main() -> io::Result<()> {
    let mut input = BufReader::new(io::stdin().lock());
    let mut header = [0; 12];
    input.read_exact(&mut header)?;
    let count = u64::from_be_bytes(header[4..].try_into().unwrap());
    let mut keys = Vec::with_capacity(count as usize);
    for _ in 0..count {
        let mut eight = [0; 8];
        input.read_exact(&mut eight)?;
        keys.push(u64::from_be_bytes(eight));
    }
    let bits = (3..=18).find(|b| 4 * count <= 3 << b).expect("a table large enough");
    let mut cells = vec![0u64; 1 << bits];
    for key in keys {
        insert(bits, &mut cells, key);
    }
    let mut output = BufWriter::new(io::stdout().lock());
    writeln!(output, "table {bits} {}", cells.iter().filter(|held| **held != 0).count())?;
    for (cell, held) in cells.iter().enumerate() {
        if *held != 0 {
            writeln!(output, "{cell} {} {}", held - 1, dist(bits, cell, held - 1))?;
        }
    }
    writeln!(output, "end")?;
    output.flush()
}
