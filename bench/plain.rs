//! The same reading in plain Rust, over a reader of CSV by hand: quotes, empty lines and both line ends as CSV has them.
use std::collections::HashMap;
use std::io::Read;

/// One record of the text from `at` on, its fields one behind the other with their ends, and where it stops.
fn record(text: &[u8], mut at: usize, bytes: &mut Vec<u8>, ends: &mut Vec<usize>) -> Option<usize> {
    bytes.clear();
    ends.clear();
    while at < text.len() && (text[at] == b'\n' || text[at] == b'\r') {
        at += 1;
    }
    if at >= text.len() {
        return None;
    }
    let mut quoted = false;
    let mut start = true;
    while at < text.len() {
        let b = text[at];
        at += 1;
        if quoted {
            if b == b'"' {
                if at < text.len() && text[at] == b'"' {
                    bytes.push(b'"');
                    at += 1;
                } else {
                    quoted = false;
                }
            } else {
                bytes.push(b);
            }
        } else if start && b == b'"' {
            quoted = true;
            start = false;
        } else if b == b',' {
            ends.push(bytes.len());
            start = true;
        } else if b == b'\n' || b == b'\r' {
            ends.push(bytes.len());
            return Some(at);
        } else {
            bytes.push(b);
            start = false;
        }
    }
    ends.push(bytes.len());
    Some(at)
}

fn field<'a>(bytes: &'a [u8], ends: &[usize], i: usize) -> &'a [u8] {
    let from = if i == 0 { 0 } else { ends[i - 1] };
    &bytes[from..ends[i]]
}

fn number(field: &[u8]) -> Option<u64> {
    if field.is_empty() {
        return None;
    }
    let mut value: u64 = 0;
    for b in field {
        if !b.is_ascii_digit() {
            return None;
        }
        if value <= 1_000_000_000_000_000 {
            value = 10 * value + u64::from(b - b'0');
        }
    }
    (value <= 1_000_000_000_000_000).then_some(value)
}

fn main() {
    let mut text = Vec::new();
    std::io::stdin().read_to_end(&mut text).unwrap();
    let mut bytes = Vec::new();
    let mut ends = Vec::new();
    let mut at = record(&text, 0, &mut bytes, &mut ends).unwrap();
    let names = ["stone", "treatment", "sex", "year", "count"];
    let places: Vec<usize> = names
        .iter()
        .map(|n| (0..ends.len()).find(|i| field(&bytes, &ends, *i) == n.as_bytes()).unwrap())
        .collect();
    let width = ends.len();
    let mut levels: Vec<HashMap<Vec<u8>, u32>> = vec![HashMap::new(); 4];
    let mut cells: Vec<u32> = Vec::new();
    let mut counts: Vec<u64> = Vec::new();
    let mut sum: u64 = 0;
    while let Some(next) = record(&text, at, &mut bytes, &mut ends) {
        at = next;
        assert!(ends.len() == width);
        let count = number(field(&bytes, &ends, places[4])).unwrap();
        for v in 0..4 {
            let level = field(&bytes, &ends, places[v]);
            let k = match levels[v].get(level) {
                Some(k) => *k,
                None => {
                    let k = levels[v].len() as u32;
                    levels[v].insert(level.to_vec(), k);
                    k
                }
            };
            cells.push(k);
        }
        let product: u64 = levels.iter().map(|l| l.len() as u64).product();
        assert!(product <= 1 << 20);
        sum += count;
        assert!(sum <= 1_000_000_000_000_000);
        counts.push(count);
    }
    for l in &levels {
        println!("levels {}", l.len());
    }
    println!("rows {}", counts.len());
    println!("sum {sum}");
    std::hint::black_box(&cells);
}
