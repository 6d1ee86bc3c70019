// What sorts, merges and set operations do, in plain Rust: the measure that the program beside it is held against.
use std::collections::HashSet;
use std::hint::black_box;
use std::time::Instant;

const ROUNDS: u64 = 5;
const TIMES: u64 = 1000;
const ROWS: usize = 1_000_000;
const RUNS: usize = 8;

// A number that looks random.
fn mixed(i: usize) -> i64 {
    let mut x = (i as u64).wrapping_add(0x9e37_79b9_7f4a_7c15);
    x = (x ^ (x >> 30)).wrapping_mul(0xbf58_476d_1ce4_e5b9);
    x = (x ^ (x >> 27)).wrapping_mul(0x94d0_49bb_1331_11eb);
    ((x ^ (x >> 31)) >> 1) as i64
}

fn numbers(from: usize, rows: usize) -> Vec<(i64, i64)> {
    (from..from + rows).map(|i| (mixed(i), i as i64)).collect()
}

fn texts() -> Vec<(Box<[u8]>, i64)> {
    (0..ROWS)
        .map(|i| (format!("kkkk{:08}", mixed(i) as u64 % 250_000).into_bytes().into_boxed_slice(), mixed(i + ROWS)))
        .collect()
}

fn halves(from: usize, rows: usize) -> Vec<i64> {
    (from..from + rows).map(|i| mixed(i % (ROWS / 2))).collect()
}

fn timed<T>(name: &str, work: impl FnOnce() -> T) {
    let start = Instant::now();
    black_box(work());
    println!("{name} {}", start.elapsed().as_nanos());
}

fn main() {
    let body = vec![7u8; 8192];
    for _ in 0..ROUNDS {
        let start = Instant::now();
        for _ in 0..TIMES {
            black_box(black_box(&body).clone());
        }
        println!("copy {}", start.elapsed().as_nanos() / u128::from(TIMES));
        let mut rows = black_box(numbers(0, ROWS));
        timed("sort by a number", || {
            rows.sort_by_key(|row| row.0);
            rows
        });
        let mut rows = black_box(texts());
        timed("sort by a text and a number", || {
            rows.sort_by(|a, b| a.0.cmp(&b.0).then(a.1.cmp(&b.1)));
            rows
        });
        let runs: Vec<Vec<(i64, i64)>> = (0..RUNS)
            .map(|run| {
                let mut rows = numbers(run * (ROWS / RUNS), ROWS / RUNS);
                rows.sort_by_key(|row| row.0);
                rows
            })
            .collect();
        let runs = black_box(runs);
        timed("eight runs interleaved", || {
            let mut rows = runs.concat();
            rows.sort_by_key(|row| row.0);
            rows
        });
        let inputs = black_box([halves(0, ROWS / 2), halves(ROWS / 2, ROWS / 2)]);
        timed("distinct union", || {
            let mut seen = HashSet::new();
            let mut rows = Vec::new();
            for row in inputs.iter().flatten() {
                if seen.insert(*row) {
                    rows.push(*row);
                }
            }
            rows
        });
    }
}
