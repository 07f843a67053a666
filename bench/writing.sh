#!/bin/sh
# What a sample of a page costs `open_writing::write`, beside what it costs `otlp_json::write` in the event of
# the page, in instructions, as valgrind's callgrind counts them. The ratio is to be at most 2/3.
# Needs rt, python3 and valgrind. Run from anywhere: bench/writing.sh [SAMPLES]
set -eu
samples=${1:-20000}
. "$(dirname "$0")/workspace.sh"
take_crates open_writing openmetrics_grammar target_core otlp_json
add_program time_writing "open_writing openmetrics_grammar target_core bridge_ports otlp_json page_model label_sets" <<'END'
//! Reads a page of OpenMetrics, and writes it, or the JSON of its event, as often as asked. With no turns it
//! puts the written text on the output.
#![tactic(auto)]
mod asked;
mod one_target;
mod told;

use crate::asked::{input, number, words};
use crate::one_target::target;
use crate::told::tell;
use openmetrics_grammar::OpenPage;
use page_model::{Event, Outcome, Page, PageFault, Treatment};
use std::alloc::{AllocError, Global};
use std::io;
use std::io::Write;
use target_core::TargetState;

const PIECE: usize = 65_536;

fn read_page(alloc: Global, bytes: &[u8]) -> Result<Page, PageFault> {
    let mut page = OpenPage::new(alloc, Treatment::Written, 1_000_000)?;
    for piece in bytes.chunks(PIECE) {
        if !page.has_room(piece) {
            break;
        }
        page.feed(piece)?;
    }
    page.finish()
}

/// Writes the page so many times, and gives how many bytes that were.
fn written(alloc: Global, page: &Page, turns: u32) -> Result<u64, AllocError> {
    let mut bytes = 0u64;
    for _ in 0..turns {
        let mut out = Vec::with_capacity(alloc, page.samples() as usize * 200)?;
        open_writing::write(page, &mut out)?;
        bytes = bytes.wrapping_add(out.len() as u64);
    }
    Ok(bytes)
}

/// Writes the JSON of the page's event so many times, and gives how many bytes that were.
fn converted(alloc: Global, page: Page, turns: u32) -> Result<u64, AllocError> {
    let samples = page.samples() as usize;
    let mut state = TargetState::new(alloc, target(alloc)?, 0)?;
    let event = Event {
        reading: 1000,
        outcome: Outcome::Page(page),
    };
    let request = state.step(alloc, event)?;
    let mut bytes = 0u64;
    for _ in 0..turns {
        let mut out = Vec::with_capacity(alloc, samples * 400)?;
        otlp_json::write(&request, &mut out)?;
        bytes = bytes.wrapping_add(out.len() as u64);
    }
    Ok(bytes)
}

fn main(rt: HostRuntime) -> io::Result<()> {
    let mut words = words(&rt)?;
    let form = words.next();
    let turns = number(words.next(), 0);
    let bytes = input(&rt)?;
    let alloc = rt.alloc();
    let page = match read_page(alloc, bytes.as_slice()) {
        Ok(page) => page,
        Err(fault) => return tell(&rt, fault),
    };
    let json = form.is_some_and(|word| word.as_str() == "json");
    if json {
        println!(rt; "{}", converted(alloc, page, turns)?)?;
        return Ok(());
    }
    if turns == 0 {
        let mut out = Vec::new(alloc);
        open_writing::write(&page, &mut out)?;
        let mut output = rt.stdout();
        output.write_all(out.as_slice())?;
        return output.flush();
    }
    println!(rt; "{}", written(alloc, &page, turns)?)
}
END
add_parts time_writing asked one_target told
build_program time_writing open 1
(cd "$here" && python3 -c "
import sys
from openmetrics import open_page
from text_commands import page
sys.stdout.buffer.write(open_page(page($samples)))
") >"$work/page"

# The instructions of a run.
instructions() {
    valgrind --tool=callgrind --callgrind-out-file=/dev/null "$work/proved" "$@" <"$work/page" 2>&1 >/dev/null |
        awk '/Collected/ { print $4 }'
}
for form in open json; do
    few=$(instructions "$form" 1)
    many=$(instructions "$form" 5)
    echo "$form $few $many"
done | awk -v samples="$samples" '
    { cost[$1] = ($3 - $2) / 4 / samples }
    END { printf "OpenMetrics %.0f instructions a sample, JSON %.0f, ratio %.2f, at most 0.67\n", cost["open"], cost["json"], cost["open"] / cost["json"] }'
