// What `rhkeys intersect FILE FILE..` does, as a plain program without proofs, to measure beside:
//   plain_lists WORKERS FILE FILE..   the same design: blocks read ahead, pieces read side by side, parts by a sample, small tables
//   plain_lists set FILE FILE..       a hash set of the library, one thread, a line at a time
use std::collections::HashSet;
use std::fs::File;
use std::io::{self, BufRead, BufReader, BufWriter, Read, Write};
use std::thread;

const MAX_KEY: u64 = (1 << 62) - 2;
const BLOCK_BYTES: usize = 16 << 20;
const KEYS_OF_A_PART: usize = 12_288;
const MOST_PARTS: usize = 1_024;
const KEYS_OF_A_GROUP: usize = 1 << 18;

// ---- texts

/// The number of a line, which may have spaces round it, and a carriage return; none where it is blank or a comment.
fn number_of(line: &[u8]) -> Option<u64> {
    let line = line.strip_suffix(b"\r").unwrap_or(line);
    let text = std::str::from_utf8(line).expect("a text").trim_matches(' ');
    if text.is_empty() || line.starts_with(b"#") {
        return None;
    }
    let key = text.parse().expect("not a key");
    assert!(key <= MAX_KEY, "out of range");
    Some(key)
}

/// The numbers of whole lines.
fn numbers_of(text: &[u8]) -> Vec<u64> {
    let mut keys = Vec::with_capacity(text.len() / 16);
    let mut at = 0;
    while at < text.len() {
        let (mut number, mut end) = (0u64, at);
        while end < text.len() && text[end].is_ascii_digit() && end < at + 19 {
            number = number * 10 + u64::from(text[end] - b'0');
            end += 1;
        }
        if end > at && number <= MAX_KEY && text.get(end) == Some(&b'\n') {
            keys.push(number);
            at = end + 1;
            continue;
        }
        let end = text[at..].iter().position(|b| *b == b'\n').map_or(text.len(), |n| at + n);
        keys.extend(number_of(&text[at..end]));
        at = end + 1;
    }
    keys.shrink_to_fit();
    keys
}

/// The text cut into about so many pieces of whole lines.
fn pieces_of(text: &[u8], many: usize) -> Vec<&[u8]> {
    let (mut pieces, mut from) = (Vec::new(), 0);
    for piece in 1..=many {
        let to = (text.len() * piece / many).max(from);
        let to = text[to..].iter().position(|b| *b == b'\n').map_or(text.len(), |n| to + n + 1);
        pieces.push(&text[from..to]);
        from = to;
    }
    pieces
}

fn read_side_by_side(text: &[u8], workers: usize) -> Vec<Vec<u64>> {
    thread::scope(|scope| {
        let mut pieces = pieces_of(text, workers).into_iter();
        let first = pieces.next().expect("a piece");
        let others: Vec<_> = pieces.map(|piece| scope.spawn(move || numbers_of(piece))).collect();
        let mut all = vec![numbers_of(first)];
        all.extend(others.into_iter().map(|other| other.join().expect("a worker")));
        all
    })
}

fn fill(file: &mut File, block: &mut [u8]) -> usize {
    let mut filled = 0;
    while filled < block.len() {
        match file.read(&mut block[filled..]).expect("a read") {
            0 => break,
            n => filled += n,
        }
    }
    filled
}

/// The keys of a key file, of which these are the first bytes.
fn keys_of(begun: &[u8], file: &mut File) -> Vec<u64> {
    let mut bytes = begun.to_vec();
    file.read_to_end(&mut bytes).expect("a read");
    let keys: Vec<u64> = bytes[12..].chunks_exact(8).map(|eight| u64::from_be_bytes(eight.try_into().expect("eight"))).collect();
    assert!(keys.iter().all(|key| *key <= MAX_KEY), "out of range");
    keys
}

/// The numbers of a file, in pieces. The next block is read while the workers read the numbers of this one.
fn read_list(path: &str, workers: usize, block: &mut Vec<u8>, next: &mut Vec<u8>) -> Vec<Vec<u64>> {
    let mut file = File::open(path).expect("a file");
    let mut filled = fill(&mut file, block);
    if block[..filled].starts_with(b"RHK2") {
        return vec![keys_of(&block[..filled], &mut file)];
    }
    let mut pieces = Vec::new();
    while filled > 0 {
        let last = filled < BLOCK_BYTES;
        let cut = if last { filled } else { 1 + block[..filled].iter().rposition(|b| *b == b'\n').expect("a line") };
        let rest = filled - cut;
        let (lines, tail) = block[..filled].split_at(cut);
        next[..rest].copy_from_slice(tail);
        if workers == 1 || last {
            pieces.extend(read_side_by_side(lines, workers));
            filled = rest + fill(&mut file, &mut next[rest..]);
        } else {
            filled = thread::scope(|scope| {
                let read = scope.spawn(move || read_side_by_side(lines, workers));
                let filled = rest + fill(&mut file, &mut next[rest..]);
                pieces.extend(read.join().expect("a worker"));
                filled
            });
        }
        std::mem::swap(block, next);
    }
    pieces
}

// ---- parts

/// The greatest borders below which the parts' keys stand, by a sample.
fn borders_of(lists: &[Vec<Vec<u64>>]) -> Vec<u64> {
    let total: usize = lists.iter().flatten().map(Vec::len).sum();
    let parts = (total / KEYS_OF_A_PART).clamp(1, MOST_PARTS);
    let step = (total / (16 * parts)).max(1);
    let mut sample: Vec<u64> = lists.iter().flatten().flat_map(|piece| piece.iter().step_by(step).copied()).collect();
    sample.sort_unstable();
    (1..parts).map(|part| sample[part * sample.len() / parts]).collect()
}

/// The keys of a piece, by parts.
fn cut(piece: &[u64], borders: &[u64]) -> Vec<Vec<u64>> {
    let part_of: Vec<u16> = piece.iter().map(|key| borders.partition_point(|border| border <= key) as u16).collect();
    let mut counts = vec![0; borders.len() + 1];
    for part in &part_of {
        counts[usize::from(*part)] += 1;
    }
    let mut parts: Vec<Vec<u64>> = counts.into_iter().map(Vec::with_capacity).collect();
    for (key, part) in piece.iter().zip(part_of) {
        parts[usize::from(part)].push(*key);
    }
    parts
}

fn cut_list(pieces: Vec<Vec<u64>>, borders: &[u64], workers: usize) -> Vec<Vec<Vec<u64>>> {
    let size = pieces.len().div_ceil(workers).max(1);
    thread::scope(|scope| {
        let cuts: Vec<_> =
            pieces.chunks(size).map(|some| scope.spawn(move || some.iter().map(|piece| cut(piece, borders)).collect::<Vec<_>>())).collect();
        cuts.into_iter().flat_map(|some| some.join().expect("a worker")).collect()
    })
}

// ---- tables

/// A Robin Hood table (Celis 1986) of the keys plus 1.
struct Table {
    bits: u32,
    cells: Vec<u64>,
}

impl Table {
    fn new(keys: usize) -> Table {
        let bits = (3..).find(|bits| 4 * keys <= 3 << bits).expect("bits");
        Table { bits, cells: vec![0; 1 << bits] }
    }

    fn home(&self, value: u64) -> usize {
        ((value - 1).wrapping_mul(11_400_714_819_323_198_485) >> (64 - self.bits)) as usize
    }

    fn insert(&mut self, key: u64) {
        let mask = self.cells.len() - 1;
        let (mut value, mut far) = (key + 1, 0);
        let mut at = self.home(value);
        loop {
            let there = self.cells[at];
            if there == 0 || there == value {
                self.cells[at] = value;
                return;
            }
            let its = at.wrapping_sub(self.home(there)) & mask;
            if its < far || (its == far && value < there) {
                self.cells[at] = value;
                (value, far) = (there, its);
            }
            (at, far) = ((at + 1) & mask, far + 1);
        }
    }

    fn has(&self, key: u64) -> bool {
        let (mask, value) = (self.cells.len() - 1, key + 1);
        let (mut at, mut far) = (self.home(value), 0);
        loop {
            let there = self.cells[at];
            if there == 0 || there == value {
                return there == value;
            }
            if (at.wrapping_sub(self.home(there)) & mask) < far {
                return false;
            }
            (at, far) = ((at + 1) & mask, far + 1);
        }
    }

    fn rising(&self) -> Vec<u64> {
        let mut keys: Vec<u64> = self.cells.iter().filter(|value| **value != 0).map(|value| value - 1).collect();
        keys.sort_unstable();
        keys
    }
}

/// What the lists of a part have in common, in rising order.
fn intersected(lists: &[Vec<u64>]) -> Vec<u64> {
    let mut table = Table::new(lists[0].len());
    lists[0].iter().for_each(|key| table.insert(*key));
    for list in &lists[1..] {
        let found: Vec<u64> = list.iter().copied().filter(|key| table.has(*key)).collect();
        table = Table::new(found.len());
        found.iter().for_each(|key| table.insert(*key));
    }
    table.rising()
}

/// The lines of what the lists have in common in these parts.
fn lines_of(cuts: &[Vec<Vec<Vec<u64>>>], from: usize, to: usize) -> Vec<u8> {
    let mut lines = Vec::new();
    for part in from..to {
        let lists: Vec<Vec<u64>> = cuts.iter().map(|pieces| pieces.iter().flat_map(|piece| &piece[part]).copied().collect()).collect();
        for key in intersected(&lists) {
            let mut digits = [b'\n'; 20];
            let (mut rest, mut at) = (key, 19);
            loop {
                at -= 1;
                digits[at] = b'0' + (rest % 10) as u8;
                rest /= 10;
                if rest == 0 {
                    break;
                }
            }
            lines.extend_from_slice(&digits[at..]);
        }
    }
    lines
}

fn intersect(paths: &[String], workers: usize) -> io::Result<()> {
    let (mut block, mut next) = (vec![0; BLOCK_BYTES], vec![0; BLOCK_BYTES]);
    let lists: Vec<_> = paths.iter().map(|path| read_list(path, workers, &mut block, &mut next)).collect();
    drop((block, next));
    let total: usize = lists.iter().flatten().map(Vec::len).sum();
    let borders = borders_of(&lists);
    let cuts: Vec<_> = lists.into_iter().map(|list| cut_list(list, &borders, workers)).collect();
    let parts = borders.len() + 1;
    let size = (parts * KEYS_OF_A_GROUP / total.max(1)).clamp(1, parts.div_ceil(workers));
    let mut output = io::stdout().lock();
    for from in (0..parts).step_by(size * workers) {
        let texts: Vec<Vec<u8>> = thread::scope(|scope| {
            let cuts = &cuts;
            let group = |n: usize| (from + n * size).min(parts);
            let others: Vec<_> = (1..workers).map(|n| scope.spawn(move || lines_of(cuts, group(n), group(n + 1)))).collect();
            let mut texts = vec![lines_of(cuts, group(0), group(1))];
            texts.extend(others.into_iter().map(|other| other.join().expect("a worker")));
            texts
        });
        for text in texts {
            output.write_all(&text)?;
        }
    }
    Ok(())
}

// ---- a hash set

fn by_set(paths: &[String]) -> io::Result<()> {
    let read = |path: &String| -> io::Result<HashSet<u64>> {
        BufReader::new(File::open(path)?).lines().filter_map(|line| line.map(|line| number_of(line.as_bytes())).transpose()).collect()
    };
    let mut held = read(&paths[0])?;
    for path in &paths[1..] {
        let other = read(path)?;
        held.retain(|key| other.contains(key));
    }
    let mut keys: Vec<u64> = held.into_iter().collect();
    keys.sort_unstable();
    let mut output = BufWriter::new(io::stdout().lock());
    for key in keys {
        writeln!(output, "{key}")?;
    }
    output.flush()
}

fn main() -> io::Result<()> {
    let words: Vec<String> = std::env::args().skip(1).collect();
    match words[0].as_str() {
        "set" => by_set(&words[1..]),
        workers => intersect(&words[1..], workers.parse().expect("a number of workers")),
    }
}
