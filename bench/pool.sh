#!/bin/sh
# What four scrapers save over one. Eight targets, each of which answers a page of 20,000 samples over a wire in memory,
# are visited ten times each by one worker and by four, and all that was posted is to be the same bytes. Then the
# targets answer a small page and each read pauses 20 ms, which four workers wait for at once. All take turns, and the
# least time of each counts. With four processors four scrapers may take at most 0.45 of the time of one, with two 0.70,
# and of the pauses at most 0.35.
# Needs rt and python3. Run from anywhere: bench/pool.sh [TURNS]
set -eu
turns=${1:-5}
. "$(dirname "$0")/workspace.sh"
node_page 20000 >"$work/page"
node_page 10 >"$work/small"

take_crates scraper_pool gated_wires
cp "$here/../HANDLES" "$work/"
add_program time_pool "gated_wires scraper_pool series_table target_table bridge_ports label_sets" <<'MAIN'
//! Reads a page on standard input, and visits eight targets that answer it: as many workers as the first word says,
//! as many rounds as the second, and in each read a pause of as many milliseconds as the third. Prints the nanoseconds
//! that the run took, a sum over all that was posted, and how many bodies were taken.
#![tactic(auto)]

ghost use Rattle.std.specs.Prelude.{◌≤◌};
ghost use Rattle.series_table.specs.Records.{most_visits};

mod asked;
mod tracks;

use crate::asked::{number, words};
use crate::tracks::{Plan, close, new_tracks};
use bridge_ports::MemoryWire;
use gated_wires::{GatedWire, Waits};
use scraper_pool::{TableFault, Track, run_targets};
use std::alloc::Global;
use std::io;
use std::sync::Wait;
use std::thread::Threads;
use std::time::{Clock, Duration, Instant};

const TARGETS: u32 = 8;

/// A sum that also counts these bytes.
fn mixed(sum: u64, bytes: &[u8]) -> u64 {
    let mut sum = sum;
    for &byte in bytes {
        sum = (sum ^ u64::from(byte)).wrapping_mul(1_099_511_628_211);
    }
    sum
}

/// A sum that also counts what was sent on a wire.
fn sent_on(sum: u64, wire: &MemoryWire) -> u64 {
    let mut sum = sum;
    for number in 0..wire.finished() {
        if let Some(bytes) = wire.sent(number + 1) {
            sum = mixed(sum, bytes);
        }
    }
    sum
}

/// A sum over what was posted, and how many bodies were taken. The tracks are let go.
fn posted<R: Clock + Sync>(tracks: Vec<Track<GatedWire<'_, R>>>) -> (u64, u64) {
    let mut tracks = tracks;
    let mut sum = 0;
    let mut taken = 0u64;
    for _ in 0..tracks.len() {
        let track = tracks.take_last();
        taken = taken.saturating_add(track.counts().accepted);
        let (_scrape, post) = track.into_wires();
        sum = sent_on(sum, &post.into_wire());
    }
    tracks.destroy_empty();
    (sum, taken)
}

/// What each read waits for.
fn waits(pause: Duration) -> Waits<'static> {
    if pause.is_zero() {
        return Waits::Nothing;
    }
    Waits::Pause(pause)
}

/// Makes a run: the nanoseconds that it took, a sum over what was posted, and how many bodies were taken.
fn timed<R: Threads + Wait + Clock + Sync>(
    rt: &R,
    alloc: Global,
    reply: &[u8],
    scrapers: u32,
    rounds: u32,
    pause: Duration,
) -> io::Result<(u128, u64, u64)>
    requires { (1 ≤ rounds) × (rounds ≤ most_visits) }
{
    let plan = Plan {
        targets: TARGETS,
        rounds,
    };
    let tracks = new_tracks(rt, alloc, reply, waits(pause), plan)?;
    let start = match Instant::now(rt) {
        Ok(start) => start,
        Err(error) => {
            close(tracks);
            return Err(error);
        }
    };
    match run_targets(rt, alloc, tracks, rounds, scrapers) {
        Ok(tracks) => {
            let took = start.elapsed(rt);
            let (sum, taken) = posted(tracks);
            Ok((took?.as_nanos(), sum, taken))
        }
        Err(TableFault::Memory(tracks)) => {
            close(tracks);
            Err(io::Error::from(io::ErrorKind::OutOfMemory))
        }
    }
}

fn main(rt: HostRuntime) -> io::Result<()> {
    let mut reply = Vec::from_slice(rt.alloc(), b"HTTP/1.1 200 OK\r\n\r\n")?;
    let mut input = rt.stdin();
    io::Read::read_to_end(&mut input, &mut reply)?;
    let mut words = words(&rt)?;
    let scrapers = number(words.next(), 1);
    let rounds = number(words.next(), 1).clamp(1, 1_000);
    let pause = Duration::from_millis(u64::from(number(words.next(), 1)));
    let (took, sum, taken) = timed(&rt, rt.alloc(), reply.as_slice(), scrapers, rounds, pause)?;
    println!(rt; "{took} {sum} {taken}")
}
MAIN

# The tracks, and what is proved of them: the gate takes a file that ends as code does for a crate's.
cp "$here/pool/tracks.rt.txt" "$work/crates/time_pool/src/tracks.rt"
cp -R "$here/pool/proofs" "$work/crates/time_pool/"
find "$work/crates/time_pool/proofs" -name '*.txt' | while read -r file; do mv "$file" "${file%.txt}"; done

add_parts time_pool asked
build_program time_pool 1 1 0
python3 - "$work/proved" "$work/page" "$work/small" "$turns" <<'COMPARE'
import os
import subprocess
import sys

program, page, small, turns = sys.argv[1:]
MOST = 0.45 if len(os.sched_getaffinity(0)) >= 4 else 0.70
MOST_PAUSED = 0.35


def run(path, scrapers, rounds, pause):
    """The seconds of a run, and what it posted."""
    with open(path, "rb") as source:
        words = [program, str(scrapers), str(rounds), str(pause)]
        told = subprocess.run(words, stdin=source, capture_output=True, text=True, check=True).stdout.split()
    return int(told[0]) / 1e9, told[1:]


def ratio(path, rounds, pause):
    """The least seconds of a run by one worker and by four."""
    least, posted = {}, []
    for _ in range(int(turns)):
        for scrapers in (1, 4):
            took, what = run(path, scrapers, rounds, pause)
            least[scrapers] = min(took, least.get(scrapers, took))
            posted.append(what)
    if any(what != posted[0] for what in posted) or int(posted[0][1]) != 8 * rounds:
        sys.exit(f"not all bodies are the same: {posted}")
    return least[1], least[4]


one, four = ratio(page, 10, 0)
print(f"8 targets of 20,000 samples, 10 rounds: {one:.2f} s with 1 scraper, {four:.2f} s with 4; ratio {four / one:.2f}, at most {MOST}")
slow, overlapping = ratio(small, 2, 20)
print(f"reads that pause 20 ms: {slow:.2f} s with 1 scraper, {overlapping:.2f} s with 4; ratio {overlapping / slow:.2f}, at most {MOST_PAUSED}")
sys.exit(four > MOST * one or overlapping > MOST_PAUSED * slow)
COMPARE
