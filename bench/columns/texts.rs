// What the columns of texts do, in plain Rust: the measure that the program beside it is held against.
use std::hint::black_box;
use std::time::Instant;
const ROUNDS: usize = 5;
const TIMES: usize = 1000;
const ROWS: usize = 800_000;
struct Col {
    ends: Vec<usize>,
    bytes: Vec<u8>,
    valid: Vec<u8>,
}
// Where the bytes begin and where each value ends in them: the offsets read, tested and widened.
fn ends(count: usize, offsets: &[u8], size: usize) -> Option<(usize, Vec<usize>)> {
    let chunks = offsets[..4 * (count + 1)].as_chunks::<4>().0;
    let first = i32::from_le_bytes(chunks[0]);
    if first < 0 {
        return None;
    }
    let mut ends = Vec::with_capacity(count);
    let mut last = first;
    let mut falls = false;
    for chunk in &chunks[1..] {
        let end = i32::from_le_bytes(*chunk);
        falls |= end < last;
        last = end;
        ends.push((end as u32 as usize).wrapping_sub(first as usize));
    }
    if falls || last as usize > size {
        return None;
    }
    Some((first as usize, ends))
}
fn binaries(count: usize, validity: &[u8], offsets: &[u8], bytes: &[u8]) -> Option<Col> {
    let (first, ends) = ends(count, offsets, bytes.len())?;
    let valid = if validity.is_empty() {
        vec![255; count.div_ceil(8)]
    } else {
        validity.to_vec()
    };
    if valid.iter().any(|b| *b != 255) {
        let mut start = 0;
        for i in 0..count {
            if valid[i / 8] >> (i % 8) & 1 == 0 && ends[i] != start {
                return None;
            }
            start = ends[i];
        }
    }
    let last = *ends.last()?;
    let bytes = bytes[first..first + last].to_vec();
    Some(Col { ends, bytes, valid })
}
fn texts(count: usize, validity: &[u8], offsets: &[u8], bytes: &[u8]) -> Option<Col> {
    let column = binaries(count, validity, offsets, bytes)?;
    let text = std::str::from_utf8(&column.bytes).ok()?;
    if !column.ends.iter().all(|end| text.is_char_boundary(*end)) {
        return None;
    }
    Some(column)
}
fn gather(column: &Col, at: &[u64]) -> Col {
    let mut ends = Vec::with_capacity(at.len());
    let mut end = 0usize;
    for i in at {
        let i = *i as usize;
        let start = if i == 0 { 0 } else { column.ends[i - 1] };
        end += column.ends[i] - start;
        ends.push(end);
    }
    let mut bytes = Vec::with_capacity(end);
    for i in at {
        let i = *i as usize;
        let start = if i == 0 { 0 } else { column.ends[i - 1] };
        bytes.extend_from_slice(&column.bytes[start..column.ends[i]]);
    }
    let valid = if column.valid.iter().all(|b| *b == 255) {
        vec![255u8; at.len().div_ceil(8)]
    } else {
        let mut bits = vec![0u8; at.len().div_ceil(8)];
        for (row, i) in at.iter().enumerate() {
            bits[row / 8] |= (column.valid[*i as usize / 8] >> (*i % 8) & 1) << (row % 8);
        }
        bits
    };
    Col { ends, bytes, valid }
}
fn indices(count: usize, dictionary: &Col, buffer: &[u8]) -> Option<Col> {
    let len = dictionary.ends.len() as i64;
    let mut bad = false;
    let at: Vec<u64> = buffer[..4 * count]
        .as_chunks::<4>()
        .0
        .iter()
        .map(|c| i32::from_le_bytes(*c) as i64)
        .inspect(|i| bad |= *i < 0 || *i >= len)
        .map(|i| i as u64)
        .collect();
    if bad {
        return None;
    }
    Some(gather(dictionary, &at))
}
fn append(column: &Col) -> Col {
    let mut out = Col {
        ends: Vec::new(),
        bytes: Vec::new(),
        valid: Vec::new(),
    };
    for k in 0..100 {
        let (from, to) = (k * 8000, (k + 1) * 8000);
        let begin = if from == 0 { 0 } else { column.ends[from - 1] };
        let start = out.bytes.len();
        out.bytes
            .extend_from_slice(&column.bytes[begin..column.ends[to - 1]]);
        out.ends
            .extend(column.ends[from..to].iter().map(|e| e - begin + start));
        out.valid.extend_from_slice(&column.valid[from / 8..to / 8]);
    }
    out
}
fn names(count: usize) -> Col {
    let text = b"abcdefghijklmnopqrstuvwxyz";
    let mut c = Col {
        ends: Vec::new(),
        bytes: Vec::new(),
        valid: Vec::new(),
    };
    for i in 0..count {
        c.bytes.extend_from_slice(black_box(&text[..5 + i % 11]));
        c.ends.push(c.bytes.len());
        if i % 8 == 0 {
            c.valid.push(0);
        }
        c.valid[i / 8] |= 1 << (i % 8);
    }
    c
}
fn body(valid: &[u8], count: usize, len: usize) -> (Vec<u8>, Vec<u8>) {
    let mut end = 0i32;
    let mut offsets = 0i32.to_le_bytes().to_vec();
    for i in 0..count {
        if valid.is_empty() || valid[i / 8] >> (i % 8) & 1 == 1 {
            end += len as i32;
        }
        offsets.extend_from_slice(&end.to_le_bytes());
    }
    (offsets, (0..end).map(|i| 97 + (i % 26) as u8).collect())
}
fn timed<T>(name: &str, times: usize, mut work: impl FnMut() -> T) {
    let start = Instant::now();
    for _ in 0..times {
        black_box(work());
    }
    println!("{name} {}", start.elapsed().as_nanos() / times as u128);
}
fn main() {
    let (offsets, bytes) = body(&[], 2048, 3);
    let bits = vec![0xefu8; 256];
    let (offsets_nulls, bytes_nulls) = body(&bits, 2048, 3);
    let (offsets_long, bytes_long) = body(&[], 2048, 30);
    let copied = vec![7u8; 8192];
    let wide = names(ROWS);
    let at: Vec<u64> = (0..ROWS as u64).map(|i| i * 7919 % ROWS as u64).collect();
    let dictionary = names(100);
    let named: Vec<u8> = (0..2048i32)
        .flat_map(|i| (i * 7 % 100).to_le_bytes())
        .collect();
    for _ in 0..ROUNDS {
        timed("copy", TIMES, || black_box(&copied).to_vec());
        timed("binaries", TIMES, || {
            binaries(2048, &[], black_box(&offsets), &bytes)
        });
        timed("texts", TIMES, || {
            texts(2048, &[], black_box(&offsets), &bytes)
        });
        timed("nulls", TIMES, || {
            texts(2048, &bits, black_box(&offsets_nulls), &bytes_nulls)
        });
        timed("long", TIMES, || {
            texts(2048, &[], black_box(&offsets_long), &bytes_long)
        });
        timed("indices", TIMES, || {
            indices(2048, &dictionary, black_box(&named))
        });
        timed("gather", 1, || gather(&wide, black_box(&at)));
        timed("append", 1, || append(black_box(&wide)));
        timed("push", 1, || names(black_box(ROWS)));
    }
}
