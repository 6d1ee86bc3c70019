// What aggregates do, in plain Rust: the measure that the program beside it is held against. Groups are in the standard library's map,
// under the number itself or under the text's bytes, which are copied where they are new, and the sum and the count of each group are
// in a list by its number.
use std::collections::HashMap;
use std::convert::TryFrom;
use std::hash::Hash;
use std::hint::black_box;
use std::time::Instant;

const ROWS: usize = 800_000;
const PART: usize = 1024;
const GROUPS: usize = 200_000;

#[derive(Default)]
struct Texts {
    ends: Vec<u32>,
    bytes: Vec<u8>,
}

impl Texts {
    fn get(&self, i: usize) -> &[u8] {
        let begin = if i == 0 { 0 } else { self.ends[i - 1] as usize };
        &self.bytes[begin..self.ends[i] as usize]
    }

    fn push(&mut self, text: &[u8]) {
        self.bytes.extend_from_slice(text);
        self.ends.push(self.bytes.len() as u32);
    }
}

struct Numbers {
    values: Vec<i64>,
    valid: Vec<u8>,
}

impl Numbers {
    fn get(&self, i: usize) -> Option<i64> {
        if self.valid[i / 8] >> (i % 8) & 1 == 1 { Some(self.values[i]) } else { None }
    }
}

struct Part<K> {
    keys: K,
    values: Numbers,
    rows: usize,
}

#[derive(Default, Clone, Copy)]
struct Tally {
    total: i128,
    count: u64,
}

fn add(tallies: &mut Vec<Tally>, group: usize, value: Option<i64>) {
    if group == tallies.len() {
        tallies.push(Tally::default());
    }
    if let Some(value) = value {
        tallies[group].total += i128::from(value);
        tallies[group].count += 1;
    }
}

fn by_texts(parts: &[Part<Texts>]) -> (HashMap<Vec<u8>, usize>, Vec<Tally>) {
    let mut groups: HashMap<Vec<u8>, usize> = HashMap::new();
    let mut tallies = Vec::new();
    for part in parts {
        for i in 0..part.rows {
            let key = part.keys.get(i);
            let next = groups.len();
            let group = match groups.get(key) {
                Some(group) => *group,
                None => {
                    groups.insert(key.to_vec(), next);
                    next
                }
            };
            add(&mut tallies, group, part.values.get(i));
        }
    }
    (groups, tallies)
}

fn by_numbers(parts: &[Part<Numbers>]) -> (HashMap<Option<i64>, usize>, Vec<Tally>) {
    let mut groups: HashMap<Option<i64>, usize> = HashMap::new();
    let mut tallies = Vec::new();
    for part in parts {
        for i in 0..part.rows {
            let next = groups.len();
            let group = *groups.entry(part.keys.get(i)).or_insert(next);
            add(&mut tallies, group, part.values.get(i));
        }
    }
    (groups, tallies)
}

// The columns of the groups' rows, in the order in which the groups came.
fn rows_of<K: Hash + Eq + Clone + Default>(groups: &HashMap<K, usize>, tallies: &[Tally]) -> (Vec<K>, Vec<Option<i64>>, Vec<i64>) {
    let mut keys = vec![K::default(); groups.len()];
    for (key, group) in groups {
        keys[*group] = key.clone();
    }
    let totals = tallies.iter().map(|tally| if tally.count == 0 { None } else { i64::try_from(tally.total).ok() }).collect();
    let counts = tallies.iter().map(|tally| tally.count as i64).collect();
    (keys, totals, counts)
}

fn key(i: usize) -> i64 {
    (i as i64).wrapping_mul(7919)
}

fn numbers(from: usize, rows: usize, modulo: usize) -> Numbers {
    Numbers { values: (from..from + rows).map(|i| key(i % modulo)).collect(), valid: vec![255; rows.div_ceil(8)] }
}

fn texts(from: usize, rows: usize) -> Texts {
    let mut column = Texts::default();
    for i in from..from + rows {
        column.push(format!("kkkkkkkkkkk{}", i % 3).as_bytes());
    }
    column
}

fn parts<K>(make: impl Fn(usize, usize) -> K) -> Vec<Part<K>> {
    (0..ROWS)
        .step_by(PART)
        .map(|from| {
            let rows = PART.min(ROWS - from);
            Part { keys: make(from, rows), values: numbers(from, rows, usize::MAX), rows }
        })
        .collect()
}

fn timed<T>(name: &str, work: impl FnOnce() -> T) -> T {
    let start = Instant::now();
    let given = work();
    println!("{name} {}", start.elapsed().as_nanos());
    given
}

fn main() {
    let body = vec![7u8; 8192];
    let mut kept = 0;
    for _ in 0..3 {
        let start = Instant::now();
        for _ in 0..1000 {
            kept += black_box(black_box(&body).clone()).len() as u64;
        }
        println!("copy {}", start.elapsed().as_nanos() / 1000);
        let given = parts(texts);
        let (groups, tallies) = timed("rows into three texts", || by_texts(&given));
        kept += black_box(rows_of(&groups, &tallies)).0.len() as u64;
        let given = parts(|from, rows| numbers(from, rows, GROUPS));
        let (groups, tallies) = timed("rows into 200,000 numbers", || by_numbers(&given));
        kept += timed("rows of 200,000 groups", || black_box(rows_of(&groups, &tallies))).0.len() as u64;
    }
    println!("kept {kept}");
}
