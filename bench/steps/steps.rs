// What a filter and a projection do, in plain Rust: the measure that the program beside it is held against.
use std::hint::black_box;
use std::time::Instant;

const ROUNDS: u64 = 5;
const TIMES: u64 = 1000;
const ROWS: usize = 1_000_000;
const BATCH: usize = 1024;

struct Batch {
    keys: Vec<i64>,
    others: Vec<i64>,
}

fn batches(rows: usize) -> Vec<Batch> {
    (0..ROWS)
        .step_by(rows)
        .map(|from| {
            let to = (from + rows).min(ROWS);
            Batch {
                keys: (from..to).map(|i| (i * 7919 % 2001) as i64 - 1000).collect(),
                others: (from..to).map(|i| i as i64).collect(),
            }
        })
        .collect()
}

// The rows whose key is below 0.
fn filtered(batch: Batch) -> Batch {
    let mut kept = Batch { keys: Vec::new(), others: Vec::new() };
    for (key, other) in batch.keys.iter().zip(&batch.others) {
        if *key < 0 {
            kept.keys.push(*key);
            kept.others.push(*other);
        }
    }
    kept
}

// The sum of both columns, or a fault, behind them.
fn projected(batch: Batch) -> Option<(Batch, Vec<i64>)> {
    let sums: Option<Vec<i64>> = batch.keys.iter().zip(&batch.others).map(|(a, b)| a.checked_add(*b)).collect();
    Some((batch, sums?))
}

fn timed<T>(name: &str, work: impl FnOnce() -> T) {
    let start = Instant::now();
    black_box(work());
    println!("{name} {}", start.elapsed().as_nanos());
}

fn main() {
    let body = vec![7u8; 8192];
    for _ in 0..ROUNDS {
        let start = Instant::now();
        for _ in 0..TIMES {
            black_box(black_box(&body).clone());
        }
        println!("copy {}", start.elapsed().as_nanos() / u128::from(TIMES));
        for rows in [ROWS, BATCH] {
            let input = black_box(batches(rows));
            timed(&format!("filter by {rows}"), || input.into_iter().map(filtered).collect::<Vec<_>>());
            let input = black_box(batches(rows));
            timed(&format!("projection by {rows}"), || input.into_iter().map(projected).collect::<Vec<_>>());
        }
    }
}
