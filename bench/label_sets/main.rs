//! Label sets by plain Rust, to be timed against the crate: pairs of strings sorted by name,
//! checked for a repeated name, without empty values.
use std::time::Instant;

type Pairs = Vec<(String, String)>;

#[inline(never)]
fn build(mut pairs: Pairs, most: usize) -> Option<Pairs> {
    if pairs.len() > most {
        return None;
    }
    pairs.sort_by(|a, b| a.0.cmp(&b.0));
    if pairs.windows(2).any(|two| two[0].0 == two[1].0) {
        return None;
    }
    pairs.retain(|pair| !pair.1.is_empty());
    Some(pairs)
}

#[inline(never)]
fn pairs(names: &[String], values: &[String]) -> Pairs {
    let mut pairs = Vec::with_capacity(names.len());
    for (name, value) in names.iter().zip(values) {
        pairs.push((name.clone(), value.clone()));
    }
    pairs
}

fn main() {
    let mut words = std::env::args().skip(1);
    let count: usize = words.next().and_then(|word| word.parse().ok()).unwrap_or(200_000);
    let names: Vec<String> = words.collect();
    let mut values: Vec<Vec<String>> = Vec::new();
    for n in 0..1000 {
        values.push(names.iter().map(|name| format!("{name}-{n}")).collect());
    }
    let start = Instant::now();
    let mut all = Vec::with_capacity(count);
    for n in 0..count {
        all.push(pairs(&names, &values[n % 1000]));
    }
    let made = start.elapsed().as_nanos();
    let start = Instant::now();
    let mut sets = Vec::with_capacity(count);
    for pairs in all {
        if let Some(set) = build(pairs, 64) {
            sets.push(set);
        }
    }
    let built = start.elapsed().as_nanos();
    let start = Instant::now();
    let mut copies = Vec::with_capacity(count);
    for set in &sets {
        copies.push(set.clone());
    }
    let copied = start.elapsed().as_nanos();
    let labels: usize = copies.iter().map(|set| set.len()).sum();
    let start = Instant::now();
    drop(sets);
    let dropped = start.elapsed().as_nanos();
    println!("{made} {built} {copied} {dropped} {labels}");
}
