#!/bin/sh
# What a history and a visit of a target cost over converting its page: of a page of 20,000 samples, a program takes in
# turn converting it, the third page of a target, where in each page one series in a hundred is gone and those of the
# page before are back, and a visit of a track over wires in memory that answer the page and take its body. It is
# pinned to one processor, and the least time of each counts. A ratio above 1.40 for the third page or 1.50 for the
# visit is an error, and so is a peak of memory above 64 MiB over 10 or 200 visits, or one that grows between them:
# there the wires keep nothing. What the command `convert text` takes, with its start, input and output, and what a
# visit over wires that keep nothing, is printed beside.
# Needs rt, python3 and taskset. Run from anywhere: bench/visit.sh [TURNS]
set -eu
turns=${1:-15}
. "$(dirname "$0")/workspace.sh"
core=$(($(nproc) - 1))
node_page 20000 >"$work/page"

take_crates series_table text_grammar
add_program time_visit "series_table text_grammar target_core start_times otlp_json otlp_tree bridge_ports page_model label_sets exact_decimal" <<'MAIN'
//! Reads a page on standard input, and visits a target that answers it as often as the first word says, over wires in
//! memory. With a second word the wires keep nothing, and nothing else is done between the visits. Prints for each
//! visit the nanoseconds of converting the page, of the third page of a target and of the visit, and how many bodies
//! were taken so far.
#![tactic(auto)]

ghost use Rattle.std.specs.Prelude.{◌≡◌, Some, IfOk, OnOk};
ghost use Rattle.bridge_ports.specs.Plans.{seen_of};
ghost use Rattle.start_times.specs.Scrapes.{moment_after};
ghost use Rattle.target_core.specs.States.{HasNextMoment};
ghost use Rattle.series_table.specs.Records.{IsFresh};

mod asked;
mod one_target;

use crate::asked::{input, number, words};
use crate::one_target::target;
use bridge_ports::{Address, End, MemoryReply, MemoryWire, Place, Settings};
use label_sets::{Bytes, List};
use page_model::{Event, Outcome, PageFault, Treatment};
use series_table::{Track, TrackFault};
use std::alloc::{AllocError, Global};
use std::io;
use std::time::Instant;
use target_core::TargetState;
use text_grammar::TextPage;

const SETTINGS: Settings = Settings {
    keep: 2,
    tries: 1,
    limit: 200_000,
    max_page: 67_108_864,
    interval: 10,
};

const TAKEN: &[u8] = b"HTTP/1.1 200 OK\r\n\r\n";

fn collector(alloc: Global) -> Result<Address, AllocError> {
    Ok(Address {
        host: Bytes::from_slice(alloc, b"c")?,
        port: 1,
        path: Bytes::from_slice(alloc, b"/v1/metrics")?,
    })
}

/// A wire in memory that answers this in each talk, and keeps what is sent where that is asked for.
fn memory_wire(
    alloc: Global,
    post: bool,
    reply: &[u8],
    keeps: bool,
) -> Result<MemoryWire, AllocError>
    ensures { IfOk result (λ wire. IsFresh (seen_of wire)) }
{
    let place = Place { number: 1, post };
    let after = MemoryReply {
        at: 0,
        got: Bytes::from_slice(alloc, reply)?,
        end: End::Ended,
    };
    let (replies, failing) = (List::new(alloc), List::new(alloc));
    let mut wire = MemoryWire::new(alloc, place, replies, Some(after), 65_536, failing);
    if !keeps {
        wire.forget();
    }
    Ok(wire)
}

/// The scrape of a page.
fn read(alloc: Global, bytes: &[u8]) -> Result<Event, PageFault>
    ensures { IfOk result (λ event. event.reading ≡ 0) }
{
    let mut page = TextPage::new(alloc, Treatment::Scraped, SETTINGS.limit)?;
    for piece in bytes.chunks(65_536) {
        if !page.has_room(piece) {
            break;
        }
        page.feed(piece)?;
    }
    Ok(Event {
        reading: 0,
        outcome: Outcome::Page(page.finish()?),
    })
}

/// The length of the text of the next scrape.
fn step(alloc: Global, state: &mut TargetState, bytes: &[u8]) -> Result<usize, PageFault>
    requires { HasNextMoment state.old.moment }
    ensures { OnOk result (state.new.moment ≡ Some (moment_after state.old.moment 0)) }
{
    let event = read(alloc, bytes)?;
    let tree = state.step(alloc, event)?;
    let mut text = Vec::new(alloc);
    otlp_json::write(&tree, &mut text)?;
    Ok(text.len())
}

fn converted(alloc: Global, bytes: &[u8]) -> Result<usize, PageFault> {
    let mut state = TargetState::new(alloc, target(alloc)?, SETTINGS.keep)?;
    step(alloc, &mut state, bytes)
}

/// A target that was scraped twice.
fn scraped_twice(alloc: Global, first: &[u8], second: &[u8]) -> Result<TargetState, PageFault>
    ensures { IfOk result (λ state. HasNextMoment state.moment) }
{
    let mut state = TargetState::new(alloc, target(alloc)?, SETTINGS.keep)?;
    step(alloc, &mut state, first)?;
    step(alloc, &mut state, second)?;
    Ok(state)
}

/// The page without one sample in a hundred, another one for each turn.
fn thinned(alloc: Global, page: &[u8], turn: u32) -> Result<Vec<u8>, AllocError> {
    let mut kept = Vec::new(alloc);
    let mut samples = 0u32;
    let (mut begins, mut stays) = (true, true);
    for &byte in page {
        if begins {
            let is_sample = byte != b'#';
            if is_sample {
                samples = samples.wrapping_add(1);
            }
            stays = !is_sample || samples % 100 != turn % 100;
        }
        begins = byte == b'\n';
        if stays {
            kept.push(byte)?;
        }
    }
    Ok(kept)
}

/// The nanoseconds of converting a page, and those of the third page of a target.
fn histories(rt: &HostRuntime, page: &[u8]) -> io::Result<(u128, u128)> {
    let alloc = rt.alloc();
    let (first, second) = (thinned(alloc, page, 0)?, thinned(alloc, page, 1)?);
    let third = thinned(alloc, page, 2)?;
    let start = Instant::now(rt)?;
    let _length = converted(alloc, page).unwrap_or(0);
    let converting = start.elapsed(rt)?.as_nanos();
    let Ok(mut state) = scraped_twice(alloc, first.as_slice(), second.as_slice()) else {
        return Err(io::Error::from(io::ErrorKind::InvalidData));
    };
    let start = Instant::now(rt)?;
    let _length = step(alloc, &mut state, third.as_slice()).unwrap_or(0);
    Ok((converting, start.elapsed(rt)?.as_nanos()))
}

fn timed(
    rt: &HostRuntime,
    track: &mut Track<MemoryWire>,
    page: &[u8],
    count: u32,
    alone: bool,
) -> io::Result<()> {
    for _ in 0..count {
        let (converting, third) = if alone { (0, 0) } else { histories(rt, page)? };
        let start = Instant::now(rt)?;
        if track.counts().visits < 1_000_000 {
            let _visited = track.visit(rt.alloc());
        }
        let visiting = start.elapsed(rt)?.as_nanos();
        let taken = track.counts().accepted;
        println!(rt; "{converting} {third} {visiting} {taken}")?;
    }
    Ok(())
}

fn visits(
    rt: &HostRuntime,
    scrape: MemoryWire,
    post: MemoryWire,
    page: &[u8],
    count: u32,
    alone: bool,
) -> io::Result<()>
    requires scrape { IsFresh (seen_of scrape) }
    requires post { IsFresh (seen_of post) }
{
    let alloc = rt.alloc();
    let (target, to) = (target(alloc)?, collector(alloc)?);
    let mut track = match Track::new(alloc, target, to, SETTINGS, scrape, post) {
        Ok(track) => track,
        Err(TrackFault::Memory(_scrape, _post)) => {
            return Err(io::Error::from(io::ErrorKind::OutOfMemory));
        }
    };
    let ended = timed(rt, &mut track, page, count, alone);
    let (_scrape, _post) = track.into_wires();
    ended
}

fn run(rt: &HostRuntime, page: &[u8], count: u32, alone: bool) -> io::Result<()> {
    let alloc = rt.alloc();
    let mut reply = Vec::from_slice(alloc, TAKEN)?;
    reply.extend_from_slice(page)?;
    let reply = reply.as_slice();
    let scrape = memory_wire(alloc, false, reply, !alone)?;
    let post = memory_wire(alloc, true, TAKEN, !alone)?;
    visits(rt, scrape, post, page, count, alone)
}

fn main(rt: HostRuntime) -> io::Result<()> {
    let page = input(&rt)?;
    let mut words = words(&rt)?;
    let count = number(words.next(), 3);
    let alone = words.next().is_some();
    run(&rt, page.as_slice(), count, alone)
}
MAIN
add_parts time_visit asked one_target
build_program time_visit 1
taskset -c "$core" python3 - "$here" "$work/proved" "$work/page" "$turns" <<'COMPARE'
import subprocess
import sys

here, visiting, page, turns = sys.argv[1:]
sys.path.insert(0, here)
from timing import built_program, peak_bytes, seconds

convert = [built_program(), "convert", "text", "j", "h:1", "1000"]


def nanoseconds(words):
    with open(page, "rb") as source:
        told = subprocess.run([visiting, *words], stdin=source, capture_output=True, text=True, check=True).stdout
    turn = [[int(word) for word in line.split()] for line in told.splitlines()]
    if [row[3] for row in turn] != [1, 2, 3]:
        sys.exit(f"a body was not taken: {told}")
    return turn


commands, rows, stubs = [], [], []
for _ in range(int(turns)):
    commands.append(seconds(convert, page))
    rows.append(nanoseconds(["3"]))
    stubs.append(nanoseconds(["3", "alone"]))
inside = min(row[0] for turn in rows for row in turn) / 1e6
third = min(row[1] for turn in rows for row in turn) / 1e6
visit = min(row[2] for turn in rows for row in turn[1:]) / 1e6
stub = min(row[2] for turn in stubs for row in turn[1:]) / 1e6
print(f"converting: {inside:.1f} ms; by the command {min(commands) * 1e3:.1f} ms")
print(f"the third page: {third:.1f} ms, ratio {third / inside:.2f}, at most 1.40")
print(f"a visit: {visit:.1f} ms, ratio {visit / inside:.2f}, at most 1.50; over wires that keep nothing {stub / inside:.2f}")
peaks = {count: peak_bytes([visiting, str(count), "alone"], page) / 2**20 for count in (10, 200)}
print("; ".join(f"peak memory of {count} visits: {peak:.0f} MiB" for count, peak in peaks.items()))
late = third > 1.4 * inside or visit > 1.5 * inside
sys.exit(late or max(peaks.values()) > 64 or peaks[200] > 1.1 * peaks[10])
COMPARE
