// What `rhpack pack` and `rhpack list` do, as a plain program without proofs, to measure beside: with `pack` it reads a
// text of numbers on standard input and writes their key file, with `list` the other way round.
use std::io::{self, BufRead, BufReader, BufWriter, Read, Write};

const MAX_KEY: u64 = (1 << 62) - 2;

fn pack(input: &mut impl BufRead, output: &mut impl Write) -> io::Result<()> {
    let mut keys = Vec::new();
    let mut line = Vec::new();
    for number in 1.. {
        line.clear();
        if input.read_until(b'\n', &mut line)? == 0 {
            break;
        }
        let text = line.strip_suffix(b"\n").unwrap_or(&line);
        let text = text.strip_suffix(b"\r").unwrap_or(text);
        let text = std::str::from_utf8(text).expect("a text").trim_matches(' ');
        if text.is_empty() || text.starts_with('#') {
            continue;
        }
        let key: u64 = text.parse().unwrap_or_else(|_| panic!("line {number}: not a key"));
        assert!(key <= MAX_KEY && keys.len() < 1_000_000, "line {number}");
        keys.push(key);
    }
    output.write_all(b"RHK2")?;
    output.write_all(&(keys.len() as u64).to_be_bytes())?;
    for key in keys {
        output.write_all(&key.to_be_bytes())?;
    }
    output.flush()
}

fn list(input: &mut impl Read, output: &mut impl Write) -> io::Result<()> {
    let mut header = [0; 12];
    input.read_exact(&mut header)?;
    let count = u64::from_be_bytes(header[4..].try_into().unwrap());
    let mut keys = Vec::with_capacity(count as usize);
    for _ in 0..count {
        let mut eight = [0; 8];
        input.read_exact(&mut eight)?;
        keys.push(u64::from_be_bytes(eight));
    }
    for key in keys {
        writeln!(output, "{key}")?;
    }
    output.flush()
}

fn main() -> io::Result<()> {
    let mut input = BufReader::new(io::stdin().lock());
    let mut output = BufWriter::new(io::stdout().lock());
    match std::env::args().nth(1).as_deref() {
        Some("pack") => pack(&mut input, &mut output),
        _ => list(&mut input, &mut output),
    }
}
