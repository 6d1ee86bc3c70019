// What the program beside it does, in plain Rust: `expressions WORK TIMES` makes the columns and does a work so many times. The crate
// memchr is that of the toolchain.
#![feature(rustc_private)]
extern crate memchr;

use memchr::memmem::Finder;
use std::hint::black_box;

const ROWS: usize = 1_000_000;
const TEXTS: usize = 100_000;

// Values, and their validity by bits.
struct Column {
    values: Vec<i64>,
    valid: Vec<u8>,
}

struct Tests {
    values: Vec<u8>,
    valid: Vec<u8>,
}

fn numbers(byte: u8, step: usize) -> Column {
    cleared((0..ROWS).map(|i| (i * step % 2001) as i64 - 1000).collect(), vec![byte; ROWS / 8])
}

// Zero stands where there is none.
fn cleared(mut values: Vec<i64>, valid: Vec<u8>) -> Column {
    for (place, byte) in valid.iter().enumerate() {
        if *byte != 255 {
            for k in 0..8 {
                if byte >> k & 1 == 0 {
                    values[8 * place + k] = 0;
                }
            }
        }
    }
    Column { values, valid }
}

fn both(a: &[u8], b: &[u8]) -> Vec<u8> {
    a.iter().zip(b).map(|(a, b)| a & b).collect()
}

fn text(i: usize) -> String {
    (0..30).map(|k| char::from(97 + ((i * 30 + k) * (i * 30 + k) / 7 % 26) as u8)).collect()
}

fn tested(a: &Column, test: impl Fn(i64) -> bool) -> Tests {
    let mut values = vec![0u8; a.values.len().div_ceil(8)];
    for (xs, byte) in a.values.chunks(8).zip(&mut values) {
        for (k, x) in xs.iter().enumerate() {
            *byte |= u8::from(test(*x)) << k;
        }
    }
    for (byte, valid) in values.iter_mut().zip(&a.valid) {
        *byte &= valid;
    }
    Tests { values, valid: a.valid.clone() }
}

fn less(a: &Column, b: &Column) -> Tests {
    let mut values = vec![0u8; a.values.len().div_ceil(8)];
    for ((xs, ys), byte) in a.values.chunks(8).zip(b.values.chunks(8)).zip(&mut values) {
        for (k, (x, y)) in xs.iter().zip(ys).enumerate() {
            *byte |= u8::from(x < y) << k;
        }
    }
    let valid = both(&a.valid, &b.valid);
    for (byte, valid) in values.iter_mut().zip(&valid) {
        *byte &= valid;
    }
    Tests { values, valid }
}

// False where one is false, else null where one is null.
fn and(a: &Tests, b: &Tests) -> Tests {
    let values = both(&a.values, &b.values);
    let valid = (0..values.len())
        .map(|i| {
            let (x, y) = (a.valid[i], b.valid[i]);
            x & y | x & !a.values[i] | y & !b.values[i]
        })
        .collect();
    Tests { values, valid }
}

fn add(a: &Column, b: &Column) -> Option<Column> {
    let mut values = vec![0; a.values.len()];
    let mut lost = false;
    for i in 0..a.values.len().min(b.values.len()) {
        let (value, over) = a.values[i].overflowing_add(b.values[i]);
        values[i] = value;
        lost |= over;
    }
    if lost {
        return None;
    }
    Some(cleared(values, both(&a.valid, &b.valid)))
}

fn multiply(a: &Column, constant: i64) -> Option<Column> {
    let mut values = vec![0; a.values.len()];
    let mut lost = false;
    for i in 0..a.values.len() {
        let (value, over) = a.values[i].overflowing_mul(constant);
        values[i] = value;
        lost |= over;
    }
    if lost {
        return None;
    }
    Some(cleared(values, a.valid.clone()))
}

// The values of the column where the test is true.
fn filtered(a: &Column) -> Column {
    let test = tested(a, |x| x < 0);
    let mut values = Vec::new();
    let mut valid = Vec::new();
    for i in 0..a.values.len() {
        if test.values[i / 8] >> (i % 8) & 1 == 1 {
            let k = values.len();
            if k % 8 == 0 {
                valid.push(0u8);
            }
            values.push(a.values[i]);
            valid[k / 8] |= (a.valid[i / 8] >> (i % 8) & 1) << (k % 8);
        }
    }
    Column { values, valid }
}

fn sum(a: &Column) -> i128 {
    a.values.iter().map(|x| i128::from(*x)).sum()
}

// The texts one behind the other, and where each ends.
struct Texts {
    bytes: Vec<u8>,
    ends: Vec<usize>,
}

// Ten characters of each text from the fifth on: their bytes, since all are ASCII.
fn parts(texts: &Texts) -> Option<Texts> {
    if !texts.bytes.is_ascii() {
        return None;
    }
    let mut bytes = Vec::new();
    let mut ends = Vec::with_capacity(texts.ends.len());
    let mut start = 0;
    for end in &texts.ends {
        let text = &texts.bytes[start..*end];
        let rest = &text[text.len().min(4)..];
        bytes.extend_from_slice(&rest[..rest.len().min(10)]);
        ends.push(bytes.len());
        start = *end;
    }
    Some(Texts { bytes, ends })
}

fn of_texts(work: usize, times: usize) {
    let texts: Vec<String> = (0..TEXTS).map(text).collect();
    let mut column = Texts { bytes: Vec::new(), ends: Vec::new() };
    for one in &texts {
        column.bytes.extend_from_slice(one.as_bytes());
        column.ends.push(column.bytes.len());
    }
    for _ in 0..times {
        let pattern = black_box("que");
        match work {
            16 => drop(black_box(texts.iter().map(|one| one.contains(pattern)).collect::<Vec<bool>>())),
            17 => {
                let finder = Finder::new(pattern);
                drop(black_box(texts.iter().map(|one| finder.find(one.as_bytes()).is_some()).collect::<Vec<bool>>()));
            }
            _ => drop(black_box(parts(black_box(&column)))),
        }
    }
}

fn main() {
    let words: Vec<usize> = std::env::args().skip(1).map(|word| word.parse().unwrap()).collect();
    let (work, times) = (words[0], words[1]);
    if work > 15 {
        of_texts(work, times);
        return;
    }
    let columns = [numbers(255, 7919), numbers(255, 104729), numbers(251, 7919), numbers(191, 104729)];
    for _ in 0..times {
        let (a, b) = (black_box(&columns[work / 8 * 2]), black_box(&columns[work / 8 * 2 + 1]));
        match work % 8 {
            0 => drop(black_box(tested(a, |x| x < 17))),
            1 => drop(black_box(less(a, b))),
            2 => drop(black_box(and(&tested(a, |x| x < 500), &tested(b, |x| x > -300)))),
            3 => drop(black_box(add(a, b))),
            4 => drop(black_box(multiply(a, black_box(17)))),
            5 => drop(black_box(filtered(a))),
            6 => drop(black_box(tested(a, |x| (-300..=200).contains(&x)))),
            _ => {
                black_box(sum(a));
            }
        }
    }
}
