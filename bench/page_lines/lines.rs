//! The lines of a page in pieces of 64 KiB, by the standard library alone, in two forms: the one by
//! `read_until`, which searches with the C library's `memchr` and copies each line, and the one by
//! `position`, which copies only the lines that are cut between two pieces.
mod sums;

use std::io::{BufRead, Read};
use std::time::Instant;
use sums::Sums;

const PIECE: usize = 65_536;
const MOST: usize = 65_536;
const TURNS: usize = 5;

enum Step<'a> {
    Line(&'a [u8]),
    More,
    TooLong,
}

struct Lines {
    line: Vec<u8>,
    number: u32,
    is_behind: bool,
    is_passing: bool,
}

impl Lines {
    fn feed<'a>(&'a mut self, piece: &'a [u8], taken: &mut usize) -> Step<'a> {
        if self.is_behind {
            self.line.clear();
            self.number += 1;
            self.is_behind = false;
        }
        let end = piece.iter().position(|b| *b == b'\n');
        let text = &piece[..end.unwrap_or(piece.len())];
        *taken = end.map_or(piece.len(), |at| at + 1);
        self.is_behind = end.is_some();
        if self.is_passing {
            self.is_passing = end.is_none();
            return Step::More;
        }
        if self.line.len() + text.len() > MOST {
            self.is_passing = end.is_none();
            return Step::TooLong;
        }
        if end.is_some() && self.line.is_empty() {
            return Step::Line(text);
        }
        self.line.extend_from_slice(text);
        if end.is_some() { Step::Line(&self.line) } else { Step::More }
    }
}

#[inline(never)]
fn by_position(page: &[u8]) -> Sums {
    let mut lines = Lines { line: Vec::with_capacity(MOST), number: 1, is_behind: false, is_passing: false };
    let mut sums = Sums::NONE;
    for piece in page.chunks(PIECE) {
        let mut rest = piece;
        while !rest.is_empty() {
            let mut taken = 0;
            if let Step::Line(line) = lines.feed(rest, &mut taken) {
                sums.add(line);
            }
            rest = &rest[taken..];
        }
    }
    if !lines.is_behind && !lines.line.is_empty() {
        sums.add(&lines.line);
    }
    sums
}

#[inline(never)]
fn by_read_until(page: &[u8]) -> Sums {
    let mut reader = std::io::BufReader::with_capacity(PIECE, page);
    let mut line = Vec::with_capacity(MOST + 1);
    let mut sums = Sums::NONE;
    while reader.read_until(b'\n', &mut line).expect("a slice gives no error") > 0 {
        sums.add(line.strip_suffix(b"\n").unwrap_or(&line));
        line.clear();
    }
    sums
}

fn main() {
    let mut page = Vec::new();
    std::io::stdin().read_to_end(&mut page).expect("the page is read");
    let form = std::env::args().nth(1).unwrap_or_default();
    for _ in 0..TURNS {
        let start = Instant::now();
        let sums = if form == "position" { by_position(&page) } else { by_read_until(&page) };
        let nanos = start.elapsed().as_nanos();
        println!("{nanos} {} {} {}", sums.lines, sums.bytes, sums.mix);
    }
}
