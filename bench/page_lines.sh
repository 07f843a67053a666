#!/bin/sh
# The speed of `page_lines` against plain Rust programs that do the same work with the standard
# library alone: each reads a page of about 30 MB into memory and goes over its lines in pieces of
# 64 KiB. The programs run pinned to one processor, in turn, and the least time of each counts.
# Needs rt, rustc, awk and taskset. Run from anywhere: bench/page_lines.sh [ROUNDS]
set -eu
rounds=${1:-7}
. "$(dirname "$0")/workspace.sh"
core=$(($(nproc) - 1))

awk 'BEGIN {
    split("idle user system iowait nice irq", modes, " ")
    for (i = 0; i < 400000; i++)
        if (i % 20 == 0) print "# HELP node_cpu_seconds_total Seconds the processors spent in each mode."
        else printf "node_cpu_seconds_total{instance=\"host-%d\",cpu=\"%d\",mode=\"%s\"} %d.%03d\n", i % 97, i % 64, modes[i % 6 + 1], (i * 7919) % 1000003, i % 1000
}' > "$work/page"

take_crates page_lines
add_program lines_bench page_lines <<'END'
//! Goes over the lines of a page on standard input in pieces of 64 KiB, and prints the time.
#![tactic(auto)]

mod sums;

use crate::sums::Sums;
use page_lines::{Last, Lines, Step};
use std::alloc::{AllocError, Global};
use std::io;
use std::time::Instant;

const PIECE: usize = 65_536;

const TURNS: usize = 5;

#[inline(never)]
fn count(alloc: Global, page: &[u8]) -> Result<Sums, AllocError> {
    let mut lines = Lines::new(alloc, 65_536)?;
    let mut sums = Sums::NONE;
    for piece in page.chunks(PIECE) {
        let mut rest = piece;
        for _ in 0..PIECE {
            if rest.is_empty() || !lines.has_room(rest) {
                break;
            }
            let mut taken = 0;
            let step = lines.feed(rest, &mut taken);
            rest = &rest[taken as usize..];
            if step == Step::Line {
                sums.add(lines.line());
            }
        }
    }
    if lines.finish() == Last::Open {
        sums.add(lines.line());
    }
    Ok(sums)
}

fn main(rt: HostRuntime) -> io::Result<()> {
    let mut page = Vec::new(rt.alloc());
    let mut input = rt.stdin();
    io::Read::read_to_end(&mut input, &mut page)?;
    for _ in 0..TURNS {
        let start = Instant::now(&rt)?;
        let sums = count(rt.alloc(), page.as_slice())?;
        let nanos = start.elapsed(&rt)?.as_nanos();
        println!(rt; "{nanos} {} {} {}", sums.lines, sums.bytes, sums.mix)?;
    }
    Ok(())
}
END
cp "$here/page_lines/sums.rs" "$work/crates/lines_bench/src/sums.rt"
build_program lines_bench
rustc --edition 2021 -C opt-level=3 -C target-cpu=x86-64-v2 -o "$work/plain" "$here/page_lines/lines.rs"

for round in $(seq "$rounds"); do
    taskset -c "$core" "$work/proved" <"$work/page" >>"$work/bridge.times"
    taskset -c "$core" "$work/plain" read_until <"$work/page" >>"$work/read_until.times"
    taskset -c "$core" "$work/plain" position <"$work/page" >>"$work/position.times"
done

# Every run of every program has to come to the same sums.
cut -d' ' -f2- "$work/bridge.times" "$work/read_until.times" "$work/position.times" | sort -u >"$work/sums"
if [ "$(wc -l <"$work/sums")" != 1 ]; then
    echo "the programs differ:"
    cat "$work/sums"
    exit 1
fi
least() { sort -n "$work/$1.times" | head -n 1 | cut -d' ' -f1; }
bridge=$(least bridge)
read_until=$(least read_until)
position=$(least position)
awk -v bytes="$(wc -c <"$work/page")" -v bridge="$bridge" -v a="$read_until" -v b="$position" 'BEGIN {
    least = a < b ? a : b
    printf "page of %.1f MB: page_lines %.2f ms, Rust by read_until %.2f ms, Rust by position %.2f ms\n", bytes / 1e6, bridge / 1e6, a / 1e6, b / 1e6
    printf "page_lines / the faster plain Rust: %.2f\n", bridge / least
}'
