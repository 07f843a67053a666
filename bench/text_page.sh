#!/bin/sh
# The speed of `text_grammar::TextPage` against plain Rust with the standard library alone that reads the
# same pages, refuses what it refuses and owns what its page owns: pages of 20,000 and of 200,000 samples
# like a node exporter's, each fed from memory in pieces of 64 KiB. The programs run pinned to one
# processor, in turn, and the least time of each counts.
# Needs rt, rustc, awk and taskset. Run from anywhere: bench/text_page.sh [ROUNDS]
set -eu
rounds=${1:-5}
. "$(dirname "$0")/workspace.sh"
core=$(($(nproc) - 1))

node_page 20000 >"$work/page.20000"
node_page 200000 >"$work/page.200000"

take_crates text_grammar
add_program page_bench "text_grammar page_model label_sets exact_decimal" <<'END'
//! Reads a page on standard input in pieces of 64 KiB, as often as the first word says. Prints the time of
//! each reading and of dropping its page, and a sum over the page.
#![tactic(auto)]

use exact_decimal::Number;
use label_sets::Kind;
use page_model::{Page, PageFault, Reading, Treatment, Value};
use std::alloc::Global;
use std::env;
use std::io;
use std::time::Instant;
use text_grammar::TextPage;

const PIECE: usize = 65_536;

fn mixed(sum: u64, more: u64) -> u64 {
    sum.wrapping_mul(1_000_003).wrapping_add(more)
}

fn bytes_sum(bytes: &[u8]) -> u64 {
    let mut sum = 0;
    for byte in bytes {
        sum = mixed(sum, u64::from(*byte));
    }
    sum
}

fn reading_sum(reading: &Reading) -> u64 {
    let mut sum = bytes_sum(reading.key.name.as_bytes());
    for label in reading.key.labels.labels() {
        sum = mixed(sum, bytes_sum(label.name.as_bytes()));
        sum = mixed(sum, bytes_sum(label.value.as_bytes()));
    }
    if let Value::Plain(Number::Finite(decimal)) = reading.value {
        sum = mixed(sum, u64::try_from(decimal.digits()).unwrap_or(0));
        sum = mixed(sum, u64::from(decimal.power().unsigned_abs()));
    }
    sum
}

/// A sum over a page that tells two pages apart.
fn page_sum(page: &Page) -> u64 {
    let mut sum = 0;
    for family in page.families().as_slice() {
        sum = mixed(sum, bytes_sum(family.name.as_bytes()));
        sum = mixed(sum, bytes_sum(family.help.as_bytes()));
        sum = mixed(sum, u64::from(family.kind == Kind::Counter));
        for reading in family.readings.as_slice() {
            sum = mixed(sum, reading_sum(reading));
        }
    }
    sum
}

#[inline(never)]
fn read_page(alloc: Global, bytes: &[u8]) -> Result<Page, PageFault> {
    let mut page = TextPage::new(alloc, Treatment::Scraped, 1_000_000)?;
    for piece in bytes.chunks(PIECE) {
        if !page.has_room(piece) {
            break;
        }
        page.feed(piece)?;
    }
    page.finish()
}

fn turns(rt: &HostRuntime) -> io::Result<u32> {
    let mut words = env::args(rt)?.into_iter();
    let _program = words.next();
    Ok(words.next().and_then(|word| word.parse::<u32>().ok()).unwrap_or(3))
}

fn main(rt: HostRuntime) -> io::Result<()> {
    let mut bytes = Vec::new(rt.alloc());
    let mut input = rt.stdin();
    io::Read::read_to_end(&mut input, &mut bytes)?;
    for _ in 0..turns(&rt)? {
        let start = Instant::now(&rt)?;
        let page = read_page(rt.alloc(), bytes.as_slice());
        let read = start.elapsed(&rt)?.as_nanos();
        match page {
            Ok(page) => {
                let families = page.families().len();
                let samples = page.samples();
                let sum = page_sum(&page);
                let start = Instant::now(&rt)?;
                drop(page);
                let dropped = start.elapsed(&rt)?.as_nanos();
                println!(rt; "{read} {dropped} {families} {samples} {sum}")?;
            }
            Err(PageFault::Refused { line, rule }) => println!(rt; "{read} 0 line {line} {}", rule.name())?,
            Err(PageFault::Memory) => println!(rt; "{read} 0 memory")?,
        }
    }
    Ok(())
}
END
build_program page_bench 1
rustc --edition 2021 -C opt-level=3 -C target-cpu=x86-64-v2 -o "$work/plain" "$here/text_page/main.rs"

for samples in 20000 200000; do
    for _ in $(seq "$rounds"); do
        for program in plain proved; do
            taskset -c "$core" "$work/$program" 3 <"$work/page.$samples" >>"$work/$program.$samples"
        done
    done
    # Every run of each program has to come to the same page.
    cut -d' ' -f3- "$work/plain.$samples" "$work/proved.$samples" | sort -u >"$work/sums"
    if [ "$(wc -l <"$work/sums")" != 1 ] || grep -Eq '^(line|memory)' "$work/sums"; then
        echo "the programs differ:"
        cat "$work/sums"
        exit 1
    fi
done

# The least of a column of a program's times, in nanoseconds.
least() { cut -d' ' -f"$3" "$work/$1.$2" | sort -n | head -n 1; }
for samples in 20000 200000; do
    awk -v samples="$samples" -v bytes="$(wc -c <"$work/page.$samples")" \
        -v plain="$(least plain "$samples" 1)" -v proved="$(least proved "$samples" 1)" \
        -v plain_dropped="$(least plain "$samples" 2)" -v proved_dropped="$(least proved "$samples" 2)" 'BEGIN {
        printf "%d samples, %.1f MB: text_grammar %.2f ms, plain Rust %.2f ms, ratio %.2f; dropping the page %.2f ms, %.2f ms\n", samples, bytes / 1e6, proved / 1e6, plain / 1e6, proved / plain, proved_dropped / 1e6, plain_dropped / 1e6
    }'
done
for program in proved plain; do
    awk -v program="$program" -v few="$(least "$program" 20000 1)" -v many="$(least "$program" 200000 1)" 'BEGIN {
        few /= 20000
        many /= 200000
        printf "%s: %.0f ns a sample of 20,000, %.0f ns a sample of 200,000, ratio %.2f\n", program == "proved" ? "text_grammar" : "plain Rust", few, many, many / few
    }'
done
