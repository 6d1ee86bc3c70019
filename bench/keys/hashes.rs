// What the hashes of keys do, in plain Rust: the measure that the program beside it is held against.
use std::hint::black_box;
use std::time::Instant;

const ROUNDS: u64 = 5;
const TIMES: u64 = 1000;
const ROWS: usize = 800_000;
const PART: usize = 1024;
const NULL: u64 = 0xd1b5_4a32_d192_ed03;

struct Numbers {
    values: Vec<i64>,
    valid: Vec<u8>,
}

struct Texts {
    ends: Vec<u32>,
    bytes: Vec<u8>,
    valid: Vec<u8>,
}

fn numbers(byte: u8, rows: usize) -> Numbers {
    let valid = vec![byte; rows / 8];
    let values = (0..rows)
        .map(|i| if is_valid(&valid, i) { (i as i64).wrapping_mul(7919) } else { 0 })
        .collect();
    Numbers { values, valid }
}

fn texts(rows: usize) -> Texts {
    let mut column = Texts { ends: Vec::new(), bytes: Vec::new(), valid: vec![255; rows / 8] };
    for i in 0..rows {
        column.bytes.extend_from_slice(format!("kkkk{i:08}").as_bytes());
        column.ends.push(column.bytes.len() as u32);
    }
    column
}

fn is_valid(valid: &[u8], i: usize) -> bool {
    valid[i / 8] >> (i % 8) & 1 == 1
}

fn mixed(hash: u64, number: u64) -> u64 {
    let product = u128::from(hash ^ number) * u128::from(hash | 1);
    product as u64 ^ (product >> 64) as u64
}

fn seeded(seed: u64) -> u64 {
    mixed(0x243f_6a88_85a3_08d3, seed)
}

fn with_text(hash: u64, text: &[u8]) -> u64 {
    let (chunks, rest) = text.as_chunks::<8>();
    let mut hash = hash;
    for chunk in chunks {
        hash = mixed(hash, u64::from_le_bytes(*chunk));
    }
    let mut number = rest.len() as u64;
    for byte in rest {
        number = number << 8 | u64::from(*byte);
    }
    mixed(hash, number)
}

fn hash_numbers(column: &Numbers, seed: u64) -> Vec<u64> {
    let start = seeded(seed);
    if column.valid.iter().all(|byte| *byte == 255) {
        return column.values.iter().map(|n| mixed(start, *n as u64)).collect();
    }
    (0..column.values.len())
        .map(|i| mixed(start, if is_valid(&column.valid, i) { column.values[i] as u64 } else { NULL }))
        .collect()
}

fn text(column: &Texts, i: usize) -> &[u8] {
    let begin = if i == 0 { 0 } else { column.ends[i - 1] as usize };
    &column.bytes[begin..column.ends[i] as usize]
}

fn hash_texts(column: &Texts, seed: u64) -> Vec<u64> {
    let start = seeded(seed);
    (0..column.ends.len())
        .map(|i| if is_valid(&column.valid, i) { with_text(start, text(column, i)) } else { mixed(start, NULL) })
        .collect()
}

fn timed(name: &str, times: u64, mut work: impl FnMut(u64) -> usize) {
    let start = Instant::now();
    for seed in 0..times {
        black_box(work(seed));
    }
    println!("{name} {}", start.elapsed().as_nanos() / u128::from(times));
}

fn main() {
    let body = vec![7u8; 8192];
    let wide = numbers(255, ROWS);
    let some = numbers(251, ROWS);
    let words = texts(ROWS);
    let wide_part = numbers(255, PART);
    let some_part = numbers(251, PART);
    let words_part = texts(PART);
    for _ in 0..ROUNDS {
        timed("copy", TIMES, |_| black_box(black_box(&body).clone()).len());
        timed("numbers", 1, |seed| hash_numbers(black_box(&wide), seed).len());
        timed("numbers of a batch", TIMES, |seed| hash_numbers(black_box(&wide_part), seed).len());
        timed("numbers with nulls", 1, |seed| hash_numbers(black_box(&some), seed).len());
        timed("numbers of a batch with nulls", TIMES, |seed| hash_numbers(black_box(&some_part), seed).len());
        timed("texts", 1, |seed| hash_texts(black_box(&words), seed).len());
        timed("texts of a batch", TIMES, |seed| hash_texts(black_box(&words_part), seed).len());
        timed("whole keys", 1, |_| black_box(&some).valid.clone().iter().map(|b| b.count_ones() as usize).sum());
        timed("number keys", 1, |_| black_box(black_box(&wide).values.clone()).len());
        timed("matches of numbers", 1, |_| {
            let (a, b) = (black_box(&wide), black_box(&some));
            (0..ROWS).filter(|i| is_valid(&a.valid, *i) && is_valid(&b.valid, *i) && a.values[*i] == b.values[*i]).count()
        });
        timed("matches of texts", 1, |_| {
            let (a, b) = (black_box(&words), black_box(&words));
            (0..ROWS).filter(|i| is_valid(&a.valid, *i) && is_valid(&b.valid, *i) && text(a, *i) == text(b, *i)).count()
        });
    }
}
