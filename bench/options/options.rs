// Look-ups among constants in plain Rust: the measure that the program beside it is held against. The set is the standard library's.
use std::collections::HashSet;
use std::hint::black_box;
use std::time::Instant;

const ROWS: usize = 1_000_000;
const OPTIONS: usize = 10_000;

fn key(i: usize) -> i64 {
    (i as i64).wrapping_mul(7919)
}

fn text(i: usize) -> Vec<u8> {
    format!("kkkk{i:08}").into_bytes()
}

fn main() {
    let body = vec![7u8; 8192];
    let integers: Vec<i64> = (0..ROWS).map(|i| key(i % (2 * OPTIONS))).collect();
    let words: Vec<Vec<u8>> = (0..ROWS).map(|i| text(i % (2 * OPTIONS))).collect();
    for _ in 0..3 {
        let start = Instant::now();
        for _ in 0..1000 {
            black_box(black_box(&body).to_vec());
        }
        println!("copy {}", start.elapsed().as_nanos() / 1000);
        let start = Instant::now();
        let set: HashSet<i64> = (0..OPTIONS).map(key).collect();
        let found: Vec<bool> = integers.iter().map(|one| set.contains(one)).collect();
        black_box(found);
        println!("numbers among 10,000 {}", start.elapsed().as_nanos());
        let start = Instant::now();
        let set: HashSet<Vec<u8>> = (0..OPTIONS).map(text).collect();
        let found: Vec<bool> = words.iter().map(|one| set.contains(one)).collect();
        black_box(found);
        println!("texts among 10,000 {}", start.elapsed().as_nanos());
    }
}
