#!/bin/sh
# What a scrape costs over reading its page: a page of 20,000 samples, fed from memory to
# `text_grammar::TextPage`, and scraped over a wire in memory, with a length and in chunks of 4,096 bytes, each in
# pieces of 4,096 bytes and of 64 KiB. One program takes both in turn, pinned to one processor, and of each way the
# median over the turns counts of what scraping takes of reading beside it. One above 1.03 is an error.
# Needs rt, awk, python3 and taskset. Run from anywhere: bench/scrape.sh [TURNS]
set -eu
turns=${1:-25}
. "$(dirname "$0")/workspace.sh"
core=$(($(nproc) - 1))

node_page 20000 >"$work/page"

take_crates scrape_client
add_program time_scrape "scrape_client http_talk text_grammar bridge_ports page_model label_sets exact_decimal" <<'END'
//! Reads a page on standard input, as often as the first word says, and scrapes the same page over a wire in
//! memory: plain and in chunks, in pieces of 4,096 bytes and of 64 KiB. Prints for each the bytes of a piece,
//! how the body is framed, and the nanoseconds of reading, of scraping and, for both, whether a page came.
#![tactic(auto)]

ghost use Rattle.std.specs.Prelude.{◌≤◌};

mod asked;
mod one_target;

use crate::asked::{input, number, words};
use crate::one_target::target;
use bridge_ports::{End, MemoryReply, MemoryWire, Place, Target};
use label_sets::{Bytes, List};
use page_model::{Outcome, PageFault, Treatment};
use scrape_client::scrape;
use std::alloc::{AllocError, Global};
use std::io;
use std::time::Instant;
use text_grammar::TextPage;

const CHUNK: usize = 4_096;

const LIMIT: u32 = 200_000;

const MOST_BYTES: u32 = 67_108_864;

/// A reply with this page.
fn reply_of(alloc: Global, page: &[u8], chunked: bool) -> Result<Vec<u8>, AllocError> {
    let mut reply = Vec::from_slice(alloc, b"HTTP/1.1 200 OK\r\n")?;
    if !chunked {
        let length = format!(in alloc; "Content-Length: {}\r\n\r\n", page.len())?;
        reply.extend_from_slice(length.as_bytes())?;
        reply.extend_from_slice(page)?;
        return Ok(reply);
    }
    reply.extend_from_slice(b"Transfer-Encoding: chunked\r\n\r\n")?;
    for chunk in page.chunks(CHUNK) {
        let size = format!(in alloc; "{:x}\r\n", chunk.len())?;
        reply.extend_from_slice(size.as_bytes())?;
        reply.extend_from_slice(chunk)?;
        reply.extend_from_slice(b"\r\n")?;
    }
    reply.extend_from_slice(b"0\r\n\r\n")?;
    Ok(reply)
}

#[inline(never)]
fn read_page(alloc: Global, bytes: &[u8], most: usize) -> Result<bool, PageFault>
    requires { 1 ≤ most }
{
    let mut page = TextPage::new(alloc, Treatment::Scraped, LIMIT)?;
    for piece in bytes.chunks(most) {
        if !page.has_room(piece) {
            break;
        }
        page.feed(piece)?;
    }
    page.finish()?;
    Ok(true)
}

#[inline(never)]
fn scrape_page(
    alloc: Global,
    reply: MemoryReply,
    target: &Target,
    most: u32,
) -> Result<bool, AllocError>
    requires { 1 ≤ most }
{
    let place = Place {
        number: 1,
        post: false,
    };
    let replies = List::from_vec(Vec::from_array(alloc, [reply])?)?;
    let failing = List::new(alloc);
    let mut wire = MemoryWire::new(alloc, place, replies, None, most, failing);
    match scrape(alloc, &mut wire, target, 0, LIMIT, MOST_BYTES)?.outcome {
        Outcome::Page(_) => Ok(true),
        Outcome::Failed(_) => Ok(false),
    }
}

fn compare(rt: &HostRuntime, page: &[u8], most: u32, chunked: bool) -> io::Result<()>
    requires { 1 ≤ most }
{
    let alloc = rt.alloc();
    let target = target(alloc)?;
    let bytes = reply_of(alloc, page, chunked)?;
    let reply = MemoryReply {
        at: 0,
        got: Bytes::from_vec(bytes),
        end: End::Ended,
    };
    let start = Instant::now(rt)?;
    let read = read_page(alloc, page, most as usize).unwrap_or(false);
    let reading = start.elapsed(rt)?.as_nanos();
    let start = Instant::now(rt)?;
    let scraped = scrape_page(alloc, reply, &target, most)?;
    let scraping = start.elapsed(rt)?.as_nanos();
    println!(rt; "{most} {chunked} {reading} {scraping} {read} {scraped}")?;
    Ok(())
}

fn main(rt: HostRuntime) -> io::Result<()> {
    let page = input(&rt)?;
    let mut words = words(&rt)?;
    for _ in 0..number(words.next(), 3) {
        compare(&rt, page.as_slice(), 4_096, false)?;
        compare(&rt, page.as_slice(), 4_096, true)?;
        compare(&rt, page.as_slice(), 65_536, false)?;
        compare(&rt, page.as_slice(), 65_536, true)?;
    }
    Ok(())
}
END
add_parts time_scrape asked one_target
build_program time_scrape 1
taskset -c "$core" "$work/proved" "$turns" <"$work/page" >"$work/times"
python3 - "$work/times" <<'COMPARE'
import os
import statistics
import sys

ratios, readings = {}, {}
with open(sys.argv[1], encoding="utf-8") as lines:
    for line in lines:
        most, chunked, reading, scraping, *came = line.split()
        if came != ["true", "true"]:
            sys.exit(f"a page did not come: {line}")
        way = f"pieces of {most} bytes, {'in chunks' if chunked == 'true' else 'with a length'}"
        ratios.setdefault(way, []).append(int(scraping) / int(reading))
        readings.setdefault(way, []).append(int(reading) / 1e6)
late = False
for way, seen in ratios.items():
    low, middle, high = statistics.quantiles(seen, n=4)
    reading = statistics.median(readings[way])
    print(f"{way}: reading {reading:.2f} ms, scraping {middle:.3f} of it, half of the turns {low:.3f} to {high:.3f}")
    late = late or middle > 1.03
print(f"the load of the last minute: {os.getloadavg()[0]:.1f}")
sys.exit(late)
COMPARE
