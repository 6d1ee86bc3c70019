// What the kernels do, in plain Rust: the measure that the program beside it is held against.
use std::hint::black_box;
use std::time::Instant;

const ROUNDS: usize = 7;
const ROWS: usize = 1_000_000;

// Values, and their validity by bits.
struct Column {
    values: Vec<i64>,
    valid: Vec<u8>,
}

struct Tests {
    values: Vec<u8>,
    valid: Vec<u8>,
}

fn column(byte: u8, step: usize) -> Column {
    cleared((0..ROWS).map(|i| (i * step % 2001) as i64 - 1000).collect(), vec![byte; ROWS / 8])
}

fn divisors(byte: u8) -> Column {
    cleared((0..ROWS).map(|i| (i * 7919 % 1000) as i64 + 1).collect(), vec![byte; ROWS / 8])
}

// Zero stands where there is none.
fn cleared(mut values: Vec<i64>, valid: Vec<u8>) -> Column {
    for (place, byte) in valid.iter().enumerate() {
        if *byte != 255 {
            for k in 0..8 {
                if byte >> k & 1 == 0 {
                    values[8 * place + k] = 0;
                }
            }
        }
    }
    Column { values, valid }
}

fn both(a: &[u8], b: &[u8]) -> Vec<u8> {
    a.iter().zip(b).map(|(a, b)| a & b).collect()
}

fn compare(a: &Column, b: &Column) -> Tests {
    let mut values = vec![0u8; a.values.len().div_ceil(8)];
    for ((xs, ys), byte) in a.values.chunks(8).zip(b.values.chunks(8)).zip(&mut values) {
        for (k, (x, y)) in xs.iter().zip(ys).enumerate() {
            *byte |= u8::from(x < y) << k;
        }
    }
    Tests { values, valid: both(&a.valid, &b.valid) }
}

fn compare_constant(a: &Column, constant: i64, less: bool) -> Tests {
    let mut values = vec![0u8; a.values.len().div_ceil(8)];
    for (xs, byte) in a.values.chunks(8).zip(&mut values) {
        for (k, x) in xs.iter().enumerate() {
            *byte |= u8::from(if less { *x < constant } else { *x > constant }) << k;
        }
    }
    for (byte, valid) in values.iter_mut().zip(&a.valid) {
        *byte &= valid;
    }
    Tests { values, valid: a.valid.clone() }
}

fn add(a: &Column, b: &Column) -> Option<Column> {
    let mut values = vec![0; a.values.len()];
    let mut lost = false;
    for i in 0..a.values.len().min(b.values.len()) {
        let (value, over) = a.values[i].overflowing_add(b.values[i]);
        values[i] = value;
        lost |= over;
    }
    if lost {
        return None;
    }
    Some(cleared(values, both(&a.valid, &b.valid)))
}

fn add_constant(a: &Column, constant: i64) -> Option<Column> {
    let mut values = vec![0; a.values.len()];
    let mut lost = false;
    for i in 0..a.values.len() {
        let (value, over) = a.values[i].overflowing_add(constant);
        values[i] = value;
        lost |= over;
    }
    if lost {
        return None;
    }
    Some(cleared(values, a.valid.clone()))
}

fn multiply(a: &Column, b: &Column) -> Option<Column> {
    let mut values = vec![0; a.values.len()];
    let mut lost = false;
    for i in 0..a.values.len().min(b.values.len()) {
        let (value, over) = a.values[i].overflowing_mul(b.values[i]);
        values[i] = value;
        lost |= over;
    }
    if lost {
        return None;
    }
    Some(cleared(values, both(&a.valid, &b.valid)))
}

fn multiply_constant(a: &Column, constant: i64) -> Option<Column> {
    let mut values = vec![0; a.values.len()];
    let mut lost = false;
    for i in 0..a.values.len() {
        let (value, over) = a.values[i].overflowing_mul(constant);
        values[i] = value;
        lost |= over;
    }
    if lost {
        return None;
    }
    Some(cleared(values, a.valid.clone()))
}

fn is_valid(valid: &[u8], i: usize) -> bool {
    valid[i / 8] >> (i % 8) & 1 == 1
}

// Each row with both numbers is divided, up to the first that can't be.
fn divide(a: &Column, b: &Column, divided: impl Fn(i64, i64) -> Option<i64>) -> Option<Column> {
    let valid = both(&a.valid, &b.valid);
    let mut values = vec![0; a.values.len()];
    for i in 0..a.values.len() {
        if is_valid(&valid, i) {
            values[i] = divided(a.values[i], b.values[i])?;
        }
    }
    Some(Column { values, valid })
}

fn divide_constant(a: &Column, constant: i64) -> Option<Column> {
    let mut values = vec![0; a.values.len()];
    for i in 0..a.values.len() {
        if is_valid(&a.valid, i) {
            values[i] = a.values[i].checked_div(constant)?;
        }
    }
    Some(Column { values, valid: a.valid.clone() })
}

fn and(a: &Tests, b: &Tests) -> Tests {
    let count = a.values.len().min(b.values.len()).min(a.valid.len()).min(b.valid.len());
    let mut tests = Tests { values: vec![0; count], valid: vec![0; count] };
    for i in 0..count {
        let (x, vx, y, vy) = (a.values[i], a.valid[i], b.values[i], b.valid[i]);
        tests.values[i] = x & y;
        tests.valid[i] = vx & vy | vx & !x | vy & !y;
    }
    tests
}

fn not(a: &Tests) -> Tests {
    Tests { values: a.values.iter().zip(&a.valid).map(|(x, valid)| !x & valid).collect(), valid: a.valid.clone() }
}

fn sum(a: &Column) -> (i128, i128) {
    let total: i128 = a.values.iter().map(|x| i128::from(*x)).sum();
    (total.div_euclid(10_000_000_000_000_000_000), total.rem_euclid(10_000_000_000_000_000_000))
}

fn select(tests: &Tests, n: usize) -> Vec<u64> {
    let mut rows = vec![0; n];
    let mut count = 0;
    for i in 0..n {
        rows[count] = i as u64;
        count += usize::from(tests.values[i / 8] >> (i % 8) & 1);
    }
    rows.truncate(count);
    rows
}

fn gather(a: &Column, at: &[u64]) -> Column {
    let values = at.iter().map(|i| a.values[*i as usize]).collect();
    let mut valid = vec![255u8; at.len().div_ceil(8)];
    if a.valid.iter().any(|byte| *byte != 255) {
        for (places, byte) in at.chunks(8).zip(&mut valid) {
            *byte = 0;
            for (k, i) in places.iter().enumerate() {
                *byte |= u8::from(is_valid(&a.valid, *i as usize)) << k;
            }
        }
    }
    Column { values, valid }
}

fn found(text: &[u8], pattern: &str) -> usize {
    text.chunks(30).take(ROWS / 10).filter(|text| std::str::from_utf8(text).is_ok_and(|text| text.contains(pattern))).count()
}

fn timed<T>(name: &str, mut work: impl FnMut() -> T) {
    let start = Instant::now();
    black_box(work());
    println!("{name} {}", start.elapsed().as_nanos());
}

fn main() {
    let (a, b) = (column(255, 7919), column(255, 104_729));
    let (a_some, b_some) = (column(251, 7919), column(191, 104_729));
    let (d, d_some) = (divisors(255), divisors(191));
    let text: Vec<u8> = (0..ROWS * 3).map(|i| 97 + (i * i / 7 % 26) as u8).collect();
    for _ in 0..ROUNDS {
        timed("compare", || compare(black_box(&a), black_box(&b)));
        timed("compare with a constant", || compare_constant(black_box(&a), black_box(17), black_box(true)));
        timed("compare with a constant, nulls", || compare_constant(black_box(&a_some), black_box(17), black_box(true)));
        timed("add", || add(black_box(&a), black_box(&b)));
        timed("add, nulls", || add(black_box(&a_some), black_box(&b_some)));
        timed("add a constant", || add_constant(black_box(&a), black_box(17)));
        timed("multiply", || multiply(black_box(&a), black_box(&b)));
        timed("multiply by a constant", || multiply_constant(black_box(&a), black_box(17)));
        timed("divide", || divide(black_box(&a), black_box(&d), i64::checked_div));
        timed("divide, nulls", || divide(black_box(&a_some), black_box(&d_some), i64::checked_div));
        timed("divide by a constant", || divide_constant(black_box(&a), black_box(17)));
        timed("modulus", || divide(black_box(&a), black_box(&d), i64::checked_rem));
        let less = compare_constant(&a, 0, true);
        let more = compare_constant(&b_some, 0, false);
        timed("and", || and(black_box(&less), black_box(&more)));
        timed("not", || not(black_box(&more)));
        timed("sum", || sum(black_box(&a)));
        timed("sum, nulls", || sum(black_box(&a_some)));
        timed("filter half", || gather(black_box(&a), &select(black_box(&less), ROWS)));
        timed("filter half, nulls", || gather(black_box(&a_some), &select(black_box(&less), ROWS)));
        timed("contains", || found(black_box(&text), black_box("que")));
    }
}
