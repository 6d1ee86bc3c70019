// What the columns do, in plain Rust: the measure that the program beside it is held against.
use std::hint::black_box;
use std::time::Instant;

const ROUNDS: usize = 5;
const TIMES: usize = 1000;
const ROWS: usize = 800_000;

fn bytes(len: usize) -> Vec<u8> {
    (0..len).map(|i| ((i * 7 + i / 251) % 256) as u8).collect()
}

fn numbers(bytes: &[u8]) -> Vec<i64> {
    bytes.as_chunks::<8>().0.iter().map(|chunk| i64::from_le_bytes(*chunk)).collect()
}

// A column of numbers: its values, and its validity.
fn fixed(count: usize, bytes: &[u8]) -> (Vec<i64>, Vec<u8>) {
    (numbers(&bytes[..8 * count]), vec![255; count.div_ceil(8)])
}

// A column of binaries: its offsets, its bytes, and its validity.
fn binaries(count: usize, offsets: &[u8], bytes: &[u8]) -> Option<(Vec<u32>, Vec<u8>, Vec<u8>)> {
    let offsets: Vec<u32> = offsets[..4 * (count + 1)].as_chunks::<4>().0.iter().map(|chunk| u32::from_le_bytes(*chunk)).collect();
    let mut rising = offsets[0] < 1 << 31;
    for i in 0..count {
        rising &= offsets[i] <= offsets[i + 1] && offsets[i + 1] < 1 << 31;
    }
    if !rising || offsets[count] as usize > bytes.len() {
        return None;
    }
    Some((offsets, bytes.to_vec(), vec![255; count.div_ceil(8)]))
}

fn texts(count: usize, offsets: &[u8], bytes: &[u8]) -> Option<(Vec<u32>, Vec<u8>, Vec<u8>)> {
    let column = binaries(count, offsets, bytes)?;
    let text = std::str::from_utf8(&column.1).ok()?;
    if !column.0.iter().all(|offset| text.is_char_boundary(*offset as usize)) {
        return None;
    }
    Some(column)
}

// The values at places, and their validity; where all are valid, no bit is looked at.
fn gather(values: &[i64], valid: &[u8], at: &[u64]) -> (Vec<i64>, Vec<u8>) {
    let picked = at.iter().map(|i| values[*i as usize]).collect();
    if valid.iter().all(|byte| *byte == 255) {
        return (picked, vec![255; at.len().div_ceil(8)]);
    }
    let mut bits = vec![0u8; at.len().div_ceil(8)];
    for (row, i) in at.iter().enumerate() {
        let bit = valid[*i as usize / 8] >> (*i % 8) & 1;
        bits[row / 8] |= bit << (row % 8);
    }
    (picked, bits)
}

fn build(rows: usize) -> (Vec<i64>, Vec<u8>) {
    let mut values = Vec::new();
    let mut bits = Vec::new();
    for row in 0..rows {
        values.push(black_box(row as i64));
        if row % 8 == 0 {
            bits.push(0u8);
        }
        bits[row / 8] |= 1 << (row % 8);
    }
    (values, bits)
}

fn timed<T>(name: &str, times: usize, mut work: impl FnMut() -> T) {
    let start = Instant::now();
    for _ in 0..times {
        black_box(work());
    }
    println!("{name} {}", start.elapsed().as_nanos() / times as u128);
}

fn main() {
    let body = bytes(8192);
    let mut offsets: Vec<u8> = (0..2049i32).flat_map(|i| (i * 3).to_le_bytes()).collect();
    let letters: Vec<u8> = (0..6144).map(|i| 97 + (i % 26) as u8).collect();
    offsets.extend_from_slice(&letters);
    let wide = numbers(&bytes(8 * ROWS));
    let valid = vec![255u8; ROWS / 8];
    let some = vec![251u8; ROWS / 8];
    let at: Vec<u64> = (0..ROWS as u64).map(|i| i * 7919 % ROWS as u64).collect();
    let (narrow, narrow_at) = (numbers(&body), (0..1024).map(|i| i * 611 % 1024).collect::<Vec<u64>>());
    for _ in 0..ROUNDS {
        timed("copy", TIMES, || black_box(&body).to_vec());
        timed("numbers", TIMES, || fixed(1024, black_box(&body)));
        timed("no rows", TIMES, || fixed(0, black_box(&body)));
        timed("binaries", TIMES, || binaries(2048, black_box(&offsets[..8196]), &offsets[8196..]));
        timed("texts", TIMES, || texts(2048, black_box(&offsets[..8196]), &offsets[8196..]));
        timed("gather", 1, || gather(&wide, &valid, black_box(&at)));
        timed("gather with nulls", 1, || gather(&wide, &some, black_box(&at)));
        timed("gather a batch", TIMES, || gather(&narrow, &valid[..128], black_box(&narrow_at)));
        timed("gather a batch with nulls", TIMES, || gather(&narrow, &some[..128], black_box(&narrow_at)));
        timed("build", 1, || build(black_box(ROWS)));
    }
}
