#!/bin/sh
# Times label sets against plain Rust over strings: 200,000 sets of 5 labels made of slices, built,
# copied and dropped, both pinned to one processor and run in turn. Prints the least time of each
# step and their ratio.
# Needs rt and rustc. Words: how often each runs (11).
set -eu
runs=${1:-11}
. "$(dirname "$0")/workspace.sh"
take_crates label_sets
add_program time_sets label_sets <<'TEXT'
#![tactic(auto)]
use label_sets::{Label, LabelSet, Name, Text};
use std::alloc::{AllocError, Global};
use std::env;
use std::io;
use std::time::Instant;

fn values_of(alloc: Global, names: &[String], n: u32) -> Result<Vec<String>, AllocError> {
    let mut values = Vec::new(alloc);
    for name in names {
        values.push(format!(in alloc; "{name}-{n}")?)?;
    }
    Ok(values)
}

fn all_values(alloc: Global, names: &[String]) -> Result<Vec<Vec<String>>, AllocError> {
    let mut all = Vec::new(alloc);
    for n in 0..1000 {
        all.push(values_of(alloc, names, n)?)?;
    }
    Ok(all)
}

#[inline(never)]
fn pairs(alloc: Global, names: &[String], values: &[String]) -> Result<Vec<Label>, AllocError> {
    let mut labels = Vec::with_capacity(alloc, names.len())?;
    for (name, value) in names.iter().zip(values.iter()) {
        labels.push(Label {
            name: Name::from_str(alloc, name.as_str())?,
            value: Text::from_str(alloc, value.as_str())?,
        })?;
    }
    Ok(labels)
}

fn made(
    alloc: Global,
    names: &[String],
    values: &[Vec<String>],
    count: usize,
) -> Result<Vec<Vec<Label>>, AllocError> {
    let mut all = Vec::with_capacity(alloc, count)?;
    for n in 0..count {
        if let Some(values) = values.get(n % 1000) {
            all.push(pairs(alloc, names, values.as_slice())?)?;
        }
    }
    Ok(all)
}

#[inline(never)]
fn build(alloc: Global, pairs: Vec<Label>) -> Option<LabelSet> {
    LabelSet::build(alloc, pairs, 64).ok()
}

fn built(alloc: Global, all: Vec<Vec<Label>>) -> Result<Vec<LabelSet>, AllocError> {
    let mut sets = Vec::with_capacity(alloc, all.len())?;
    for pairs in all {
        if let Some(set) = build(alloc, pairs) {
            sets.push(set)?;
        }
    }
    Ok(sets)
}

fn copied(alloc: Global, sets: &[LabelSet]) -> Result<Vec<LabelSet>, AllocError> {
    let mut copies = Vec::with_capacity(alloc, sets.len())?;
    for set in sets {
        copies.push(set.copy()?)?;
    }
    Ok(copies)
}

fn labels_in(sets: &[LabelSet]) -> u64 {
    let mut labels = 0u64;
    for set in sets {
        labels = labels.saturating_add(set.len() as u64);
    }
    labels
}

fn main(rt: HostRuntime) -> io::Result<()> {
    let alloc = rt.alloc();
    let mut words = env::args(&rt)?.into_iter();
    let _program = words.next();
    let count = words.next().and_then(|word| word.parse::<usize>().ok()).unwrap_or(200_000);
    let mut names = Vec::new(alloc);
    for word in words {
        names.push(word)?;
    }
    let values = all_values(alloc, names.as_slice())?;
    let start = Instant::now(&rt)?;
    let all = made(alloc, names.as_slice(), values.as_slice(), count)?;
    let made = start.elapsed(&rt)?.as_nanos();
    let start = Instant::now(&rt)?;
    let sets = built(alloc, all)?;
    let built = start.elapsed(&rt)?.as_nanos();
    let start = Instant::now(&rt)?;
    let copies = copied(alloc, sets.as_slice())?;
    let copied = start.elapsed(&rt)?.as_nanos();
    let labels = labels_in(copies.as_slice());
    let start = Instant::now(&rt)?;
    drop(sets);
    let dropped = start.elapsed(&rt)?.as_nanos();
    println!(rt; "{made} {built} {copied} {dropped} {labels}")
}
TEXT
rustc -C opt-level=3 --edition 2021 -o "$work/plain" "$here/label_sets/main.rs"
build_program time_sets 1 a
# in turn, so that both meet the same machine
each() {
    : > "$work/plain.times"
    : > "$work/proved.times"
    for _ in $(seq "$runs"); do
        taskset -c 3 "$work/plain" 200000 "$@" >> "$work/plain.times"
        taskset -c 3 "$work/proved" 200000 "$@" >> "$work/proved.times"
    done
    awk -v names="$*" '
        FNR == 1 { file++ }
        { labels[file] = $5; for (i = 1; i <= 4; i++) if (FNR == 1 || $i < low[file, i]) low[file, i] = $i }
        END {
            if (labels[1] != labels[2]) { print "the sets differ"; exit 1 }
            print names
            split("making building copying dropping", step, " ")
            for (i = 1; i <= 4; i++) printf "  %s: plain %.1f ms, proved %.1f ms, ratio %.2f\n", step[i], low[1, i] / 1e6, low[2, i] / 1e6, low[2, i] / low[1, i]
        }' "$work/plain.times" "$work/proved.times"
}
each code handler instance job method
each method job handler code instance
