//! Pages of the Prometheus text format 0.0.4 by plain Rust with the standard library alone, to be timed
//! against the crate `text_grammar`: it owns what the crate's page owns, and refuses what that refuses.
//! Histograms and summaries it doesn't read.
//!
//! Reads a page on standard input into memory. Word: how often the page is read in turn. Prints the time
//! of each reading and of dropping its page in nanoseconds, and a sum over the page.

use std::collections::hash_map::{Entry, RandomState};
use std::collections::HashMap;
use std::hash::BuildHasher;
use std::io::{BufRead, Read};
use std::time::Instant;

const PIECE: usize = 65_536;
const MOST_LINE: usize = 65_536;
const MOST_LABELS: usize = 64;
const MOST_SAMPLES: u32 = 1_000_000;
const MOST_DIGITS: usize = 38;

// ---- the page

#[derive(Clone, Copy, Debug, PartialEq, Eq)]
#[allow(dead_code)]
enum Kind {
    Counter,
    Gauge,
    Histogram,
    Summary,
    Unknown,
}

#[derive(Clone, Copy, Debug, PartialEq, Eq)]
struct Decimal {
    digits: u128,
    power: i32,
    negative: bool,
}

#[derive(Clone, Copy, Debug, PartialEq, Eq)]
enum Number {
    Finite(Decimal),
    Up,
    Down,
    NotANumber,
}

#[derive(Debug, PartialEq, Eq, Hash, PartialOrd, Ord)]
struct Label {
    name: String,
    value: String,
}

#[allow(dead_code)]
struct SeriesKey {
    name: String,
    kind: Kind,
    unit: String,
    labels: Vec<Label>,
}

#[allow(dead_code)]
struct Exemplar {
    labels: Vec<Label>,
    value: Number,
    stamp: Option<Number>,
}

#[allow(dead_code)]
enum Value {
    Plain(Number),
    Buckets {
        buckets: Vec<(Number, u64)>,
        sum: Option<Number>,
    },
    Quantiles {
        list: Vec<(Decimal, Number)>,
        count: Option<u64>,
        sum: Option<Number>,
    },
}

#[allow(dead_code)]
struct Reading {
    key: SeriesKey,
    value: Value,
    created: Option<Number>,
    stamp: Option<u64>,
    exemplars: Vec<Exemplar>,
}

#[allow(dead_code)]
struct Family {
    name: String,
    kind: Kind,
    help: String,
    unit: String,
    readings: Vec<Reading>,
}

struct Page {
    families: Vec<Family>,
    samples: u32,
}

#[derive(Clone, Copy, Debug, PartialEq, Eq)]
enum Rule {
    // of the bytes
    NoNewline,
    TooLong,
    Utf8,
    // of a line
    Labels,
    Range,
    Syntax,
    // of lines together
    Descriptor,
    Duplicate,
    Split,
    TooMany,
    /// A kind with buckets or quantiles, which this program doesn't read.
    Unread,
}

/// The least line that breaks a rule, and the least rule that it breaks.
#[derive(Clone, Copy, Debug, PartialEq, Eq)]
struct Fault {
    line: u32,
    rule: Rule,
}

// ---- numbers

/// The number of a token, exactly.
fn read_number(token: &[u8]) -> Result<Number, Rule> {
    let (negative, rest) = match token.split_first() {
        Some((b'-', rest)) => (true, rest),
        Some((b'+', rest)) => (false, rest),
        _ => (false, token),
    };
    let mut value: u64 = 0;
    let mut count = 0;
    let mut fraction = 0;
    let mut point = false;
    let mut at = 0;
    while let Some(&byte) = rest.get(at) {
        match byte {
            b'0'..=b'9' => {
                // wraps at many digits, for which the digits are read again
                value = value.wrapping_mul(10).wrapping_add(u64::from(byte - b'0'));
                count += 1;
                fraction += i32::from(point);
            }
            b'.' if !point => point = true,
            _ => break,
        }
        at += 1;
    }
    if count == 0 {
        return read_word(token, rest, negative);
    }
    let exponent = match rest.get(at) {
        None => 0,
        Some(b'e' | b'E') => read_exponent(&rest[at + 1..]).ok_or(Rule::Syntax)?,
        Some(_) => return Err(Rule::Syntax),
    };
    if token.len() > 128 {
        return Err(Rule::Range);
    }
    let power = exponent - fraction;
    let digits = if count <= 19 {
        u128::from(value)
    } else {
        return long_decimal(&rest[..at], power, negative);
    };
    decimal(digits, power, negative)
}

/// An infinity or `nan`.
fn read_word(token: &[u8], unsigned: &[u8], negative: bool) -> Result<Number, Rule> {
    if unsigned.eq_ignore_ascii_case(b"inf") || unsigned.eq_ignore_ascii_case(b"infinity") {
        return Ok(if negative { Number::Down } else { Number::Up });
    }
    if token.eq_ignore_ascii_case(b"nan") {
        return Ok(Number::NotANumber);
    }
    Err(Rule::Syntax)
}

/// An exponent with an optional sign; what breaks a limit anyway is held at 10,000.
fn read_exponent(bytes: &[u8]) -> Option<i32> {
    let (negative, digits) = match bytes.split_first() {
        Some((b'-', rest)) => (true, rest),
        Some((b'+', rest)) => (false, rest),
        _ => (false, bytes),
    };
    if digits.is_empty() {
        return None;
    }
    let mut value = 0;
    for &byte in digits {
        if !byte.is_ascii_digit() {
            return None;
        }
        value = (value * 10 + i32::from(byte - b'0')).min(10_000);
    }
    Some(if negative { -value } else { value })
}

/// A decimal of many digits.
fn long_decimal(written: &[u8], power: i32, negative: bool) -> Result<Number, Rule> {
    let digits: Vec<u8> = written
        .iter()
        .copied()
        .filter(|&byte| byte != b'.')
        .collect();
    let Some(first) = digits.iter().position(|&byte| byte != b'0') else {
        return decimal(0, 0, negative);
    };
    let last = digits
        .iter()
        .rposition(|&byte| byte != b'0')
        .unwrap_or(first);
    let kept = &digits[first..=last];
    if kept.len() > MOST_DIGITS {
        return Err(Rule::Range);
    }
    let value = kept
        .iter()
        .fold(0u128, |value, &byte| value * 10 + u128::from(byte - b'0'));
    decimal(value, power + (digits.len() - 1 - last) as i32, negative)
}

/// The one form of digits and a power, within the limits.
fn decimal(digits: u128, power: i32, negative: bool) -> Result<Number, Rule> {
    if digits == 0 {
        return Ok(Number::Finite(Decimal {
            digits: 0,
            power: 0,
            negative: false,
        }));
    }
    let (digits, zeros, places) = match u64::try_from(digits) {
        Ok(mut short) => {
            let mut zeros = 0;
            while short % 10 == 0 {
                short /= 10;
                zeros += 1;
            }
            (u128::from(short), zeros, short.ilog10())
        }
        Err(_) => (digits, 0, digits.ilog10()),
    };
    let power = power + zeros;
    let leading = power + places as i32;
    if !(-400..=308).contains(&leading) {
        return Err(Rule::Range);
    }
    Ok(Number::Finite(Decimal {
        digits,
        power,
        negative,
    }))
}

/// A timestamp in whole milliseconds, which a signed 64-bit number has to hold.
fn read_stamp(token: &str) -> Result<i64, Rule> {
    let digits = token.strip_prefix(['-', '+']).unwrap_or(token);
    if digits.is_empty() || !digits.bytes().all(|byte| byte.is_ascii_digit()) {
        return Err(Rule::Syntax);
    }
    token.parse().map_err(|_| Rule::Range)
}

// ---- lines

enum Item<'a> {
    Nothing,
    Help(&'a str, &'a str),
    Type(&'a str, Kind),
    Sample(&'a str, Vec<Label>, Number),
}

const BLANKS: [char; 2] = [' ', '\t'];

fn is_name_start(byte: u8) -> bool {
    byte.is_ascii_alphabetic() || byte == b'_'
}

/// The name at the front, of these characters, and the rest.
fn cut_name(text: &str, is_start: impl Fn(u8) -> bool) -> Option<(&str, &str)> {
    let bytes = text.as_bytes();
    let count = bytes
        .iter()
        .position(|&byte| !(is_start(byte) || byte.is_ascii_digit()))
        .unwrap_or(bytes.len());
    if count == 0 || bytes[0].is_ascii_digit() {
        return None;
    }
    Some(text.split_at(count))
}

fn cut_metric_name(text: &str) -> Option<(&str, &str)> {
    cut_name(text, |byte| is_name_start(byte) || byte == b':')
}

/// The word at the front and the rest, which is empty or begins with a blank.
fn cut_word(text: &str) -> (&str, &str) {
    let count = text
        .bytes()
        .position(|byte| byte == b' ' || byte == b'\t')
        .unwrap_or(text.len());
    text.split_at(count)
}

/// The text that an escaped one stands for.
fn unescaped(written: &str, quotes: bool) -> String {
    if !written.contains('\\') {
        return written.to_owned();
    }
    let mut text = String::with_capacity(written.len());
    let mut chars = written.chars();
    while let Some(char) = chars.next() {
        if char != '\\' {
            text.push(char);
            continue;
        }
        let next = chars.as_str().bytes().next();
        let stands_for = match next {
            Some(b'\\') => '\\',
            Some(b'n') => '\n',
            Some(b'"') if quotes => '"',
            _ => {
                text.push('\\');
                continue;
            }
        };
        text.push(stands_for);
        chars.next();
    }
    text
}

/// What stands in front of the first quote that isn't escaped, and behind it.
fn cut_quoted(text: &str) -> Option<(&str, &str)> {
    let bytes = text.as_bytes();
    let mut at = 0;
    while let Some(&byte) = bytes.get(at) {
        match byte {
            b'"' => return Some((&text[..at], &text[at + 1..])),
            b'\\' => at += 2,
            _ => at += 1,
        }
    }
    None
}

/// The labels up to the closing brace, and what stands behind it.
fn cut_labels(text: &str) -> Option<(Vec<Label>, &str)> {
    let mut labels = Vec::new();
    let mut rest = text.trim_start_matches(BLANKS);
    loop {
        if let Some(behind) = rest.strip_prefix('}') {
            return Some((labels, behind));
        }
        let (name, behind) = cut_name(rest, is_name_start)?;
        let behind = behind.trim_start_matches(BLANKS).strip_prefix('=')?;
        let (value, behind) = cut_quoted(behind.trim_start_matches(BLANKS).strip_prefix('"')?)?;
        labels.push(Label {
            name: name.to_owned(),
            value: unescaped(value, true),
        });
        rest = behind.trim_start_matches(BLANKS);
        if let Some(more) = rest.strip_prefix(',') {
            rest = more.trim_start_matches(BLANKS);
        } else if !rest.starts_with('}') {
            return None;
        }
    }
}

/// Labels by name without empty values, where they are few enough and distinct.
fn label_set(mut labels: Vec<Label>) -> Result<Vec<Label>, Rule> {
    if labels.len() > MOST_LABELS {
        return Err(Rule::Labels);
    }
    labels.sort_by(|a, b| a.name.cmp(&b.name));
    if labels.windows(2).any(|two| two[0].name == two[1].name) {
        return Err(Rule::Labels);
    }
    labels.retain(|label| !label.value.is_empty());
    Ok(labels)
}

/// Gives the labels `job` and `instance` names that the target's own labels leave free.
fn renamed(mut labels: Vec<Label>) -> Vec<Label> {
    let mut changed = false;
    for own in ["job", "instance"] {
        let Some(at) = labels.iter().position(|label| label.name == own) else {
            continue;
        };
        let mut name = format!("exported_{own}");
        while labels.iter().any(|label| label.name == name) {
            name.insert_str(0, "exported_");
        }
        labels[at].name = name;
        changed = true;
    }
    if changed {
        labels.sort_unstable();
    }
    labels
}

fn sample_line(line: &str) -> Result<Item<'_>, Rule> {
    let (name, rest) = cut_metric_name(line).ok_or(Rule::Syntax)?;
    let inner = rest.trim_start_matches(BLANKS);
    let (labels, rest) = match inner.strip_prefix('{') {
        Some(inner) => cut_labels(inner).ok_or(Rule::Syntax)?,
        None if inner.len() < rest.len() => (Vec::new(), inner),
        None => return Err(Rule::Syntax),
    };
    let (value, rest) = cut_word(rest.trim_start_matches(BLANKS));
    let value = read_number(value.as_bytes());
    if !rest.is_empty() {
        let stamp = read_stamp(rest.trim_start_matches(BLANKS));
        if value == Err(Rule::Syntax) || stamp == Err(Rule::Syntax) {
            return Err(Rule::Syntax);
        }
        stamp?;
    }
    let value = value?;
    Ok(Item::Sample(name, label_set(labels)?, value))
}

/// The metric name of a descriptor, and what stands behind the blanks that follow it.
fn cut_described(text: &str) -> Option<(&str, &str)> {
    let (name, rest) = cut_metric_name(text.trim_start_matches(BLANKS))?;
    let text = rest.trim_start_matches(BLANKS);
    if text.len() == rest.len() && !rest.is_empty() {
        return None;
    }
    Some((name, text))
}

fn kind_named(word: &str) -> Option<Kind> {
    match word {
        "counter" => Some(Kind::Counter),
        "gauge" => Some(Kind::Gauge),
        "histogram" => Some(Kind::Histogram),
        "summary" => Some(Kind::Summary),
        "untyped" => Some(Kind::Unknown),
        _ => None,
    }
}

fn marked_line(text: &str) -> Result<Item<'_>, Rule> {
    let (word, rest) = cut_word(text.trim_start_matches(BLANKS));
    match word {
        "HELP" => {
            let (name, text) = cut_described(rest).ok_or(Rule::Syntax)?;
            Ok(Item::Help(name, text))
        }
        "TYPE" => {
            let (name, word) = cut_described(rest).ok_or(Rule::Syntax)?;
            Ok(Item::Type(name, kind_named(word).ok_or(Rule::Syntax)?))
        }
        _ => Ok(Item::Nothing),
    }
}

fn text_line(line: &[u8]) -> Result<Item<'_>, Rule> {
    let line = std::str::from_utf8(line)
        .map_err(|_| Rule::Utf8)?
        .trim_matches(BLANKS);
    match line.strip_prefix('#') {
        Some(marked) => marked_line(marked),
        None if line.is_empty() => Ok(Item::Nothing),
        None => sample_line(line),
    }
}

// ---- pages

/// A family while its page is read.
struct FamilySoFar {
    name: String,
    kind: Option<Kind>,
    help: Option<String>,
    readings: Vec<Reading>,
}

/// Reads a page in pieces of any size.
struct TextPage {
    /// A line whose end was not fed yet.
    begun: Vec<u8>,
    line: u32,
    families: Vec<FamilySoFar>,
    places: HashMap<String, usize>,
    state: RandomState,
    /// Where the reading of a hash stands: its family and its number there. One whose hash is taken by
    /// another key has the next free one.
    seen: HashMap<u64, (u32, u32)>,
    samples: u32,
}

impl TextPage {
    fn new() -> TextPage {
        TextPage {
            begun: Vec::new(),
            line: 1,
            families: Vec::new(),
            places: HashMap::new(),
            state: RandomState::new(),
            seen: HashMap::new(),
            samples: 0,
        }
    }

    fn feed(&mut self, piece: &[u8]) -> Result<(), Fault> {
        let mut rest = piece;
        while !rest.is_empty() {
            let line = rest;
            // finds the line feed by the library's memchr
            let count = rest.skip_until(b'\n').unwrap_or(line.len());
            let line = &line[..count];
            let Some((b'\n', line)) = line.split_last() else {
                self.begun.extend_from_slice(line);
                return self.check_length(self.begun.len());
            };
            if self.begun.is_empty() {
                self.take_line(line)?;
            } else {
                let mut whole = std::mem::take(&mut self.begun);
                whole.extend_from_slice(line);
                self.take_line(&whole)?;
                whole.clear();
                self.begun = whole;
            }
            self.line += 1;
        }
        Ok(())
    }

    fn finish(mut self) -> Result<Page, Fault> {
        if !self.begun.is_empty() {
            let line = std::mem::take(&mut self.begun);
            self.take_line(&line)?;
            return Err(Fault {
                line: self.line + 1,
                rule: Rule::NoNewline,
            });
        }
        let families = self.families.into_iter().map(|family| Family {
            name: family.name,
            kind: family.kind.unwrap_or(Kind::Unknown),
            help: family.help.unwrap_or_default(),
            unit: String::new(),
            readings: family.readings,
        });
        Ok(Page {
            families: families.collect(),
            samples: self.samples,
        })
    }

    fn check_length(&self, length: usize) -> Result<(), Fault> {
        if length > MOST_LINE {
            return Err(Fault {
                line: self.line,
                rule: Rule::TooLong,
            });
        }
        Ok(())
    }

    fn take_line(&mut self, line: &[u8]) -> Result<(), Fault> {
        self.check_length(line.len())?;
        self.take(line).map_err(|rule| Fault {
            line: self.line,
            rule,
        })
    }

    fn take(&mut self, line: &[u8]) -> Result<(), Rule> {
        match text_line(line)? {
            Item::Nothing => Ok(()),
            Item::Help(name, text) => {
                let family = self.described(name, |family| family.help.is_some())?;
                family.help = Some(unescaped(text, false));
                Ok(())
            }
            Item::Type(name, kind) => {
                let family = self.described(name, |family| family.kind.is_some())?;
                if matches!(kind, Kind::Histogram | Kind::Summary) {
                    return Err(Rule::Unread);
                }
                family.kind = Some(kind);
                Ok(())
            }
            Item::Sample(name, labels, value) => self.take_sample(name, labels, value),
        }
    }

    /// The family of a descriptor, where that comes neither again nor too late.
    fn described(
        &mut self,
        name: &str,
        is_there: impl Fn(&FamilySoFar) -> bool,
    ) -> Result<&mut FamilySoFar, Rule> {
        if let Some(&place) = self.places.get(name) {
            let family = &self.families[place];
            if is_there(family) || !family.readings.is_empty() {
                return Err(Rule::Descriptor);
            }
        }
        let place = self.reach(name)?;
        Ok(&mut self.families[place])
    }

    /// The place of the family of this name, which is the last one, or a new one.
    fn reach(&mut self, name: &str) -> Result<usize, Rule> {
        let place = self.families.len();
        if self
            .families
            .last()
            .is_some_and(|family| family.name == name)
        {
            return Ok(place - 1);
        }
        if self.places.contains_key(name) {
            return Err(Rule::Split);
        }
        self.places.insert(name.to_owned(), place);
        self.families.push(FamilySoFar {
            name: name.to_owned(),
            kind: None,
            help: None,
            readings: Vec::new(),
        });
        Ok(place)
    }

    fn take_sample(&mut self, name: &str, labels: Vec<Label>, value: Number) -> Result<(), Rule> {
        let place = self.reach(name)?;
        let labels = renamed(labels);
        self.see(place, name, &labels)?;
        if self.samples >= MOST_SAMPLES {
            return Err(Rule::TooMany);
        }
        self.samples += 1;
        let family = &mut self.families[place];
        family.readings.push(Reading {
            key: SeriesKey {
                name: name.to_owned(),
                kind: family.kind.unwrap_or(Kind::Unknown),
                unit: String::new(),
                labels,
            },
            value: Value::Plain(value),
            created: None,
            stamp: None,
            exemplars: Vec::new(),
        });
        Ok(())
    }

    /// Keeps that the next reading of a family has this key, where no earlier one has it.
    fn see(&mut self, place: usize, name: &str, labels: &[Label]) -> Result<(), Rule> {
        let mut hash = self.state.hash_one((name, labels));
        loop {
            match self.seen.entry(hash) {
                Entry::Vacant(free) => {
                    free.insert((place as u32, self.families[place].readings.len() as u32));
                    return Ok(());
                }
                Entry::Occupied(taken) => {
                    let &(family, number) = taken.get();
                    let key = &self.families[family as usize].readings[number as usize].key;
                    if key.name == name && key.labels == labels {
                        return Err(Rule::Duplicate);
                    }
                    hash = hash.wrapping_add(1);
                }
            }
        }
    }
}

#[inline(never)]
fn read_page(bytes: &[u8]) -> Result<Page, Fault> {
    let mut page = TextPage::new();
    for piece in bytes.chunks(PIECE) {
        page.feed(piece)?;
    }
    page.finish()
}

// ---- sums

fn mixed(sum: u64, more: u64) -> u64 {
    sum.wrapping_mul(1_000_003).wrapping_add(more)
}

fn bytes_sum(text: &str) -> u64 {
    text.bytes()
        .fold(0, |sum, byte| mixed(sum, u64::from(byte)))
}

fn reading_sum(reading: &Reading) -> u64 {
    let mut sum = bytes_sum(&reading.key.name);
    for label in &reading.key.labels {
        sum = mixed(mixed(sum, bytes_sum(&label.name)), bytes_sum(&label.value));
    }
    if let Value::Plain(Number::Finite(decimal)) = reading.value {
        sum = mixed(
            mixed(sum, u64::try_from(decimal.digits).unwrap_or(0)),
            u64::from(decimal.power.unsigned_abs()),
        );
    }
    sum
}

/// A sum over a page that tells two pages apart.
fn page_sum(page: &Page) -> u64 {
    let mut sum = 0;
    for family in &page.families {
        sum = mixed(mixed(sum, bytes_sum(&family.name)), bytes_sum(&family.help));
        sum = mixed(sum, u64::from(family.kind == Kind::Counter));
        for reading in &family.readings {
            sum = mixed(sum, reading_sum(reading));
        }
    }
    sum
}

fn main() -> Result<(), Box<dyn std::error::Error>> {
    let turns = std::env::args()
        .nth(1)
        .map_or(Ok(3), |word| word.parse::<u32>())?;
    let mut bytes = Vec::new();
    std::io::stdin().lock().read_to_end(&mut bytes)?;
    for _ in 0..turns {
        let start = Instant::now();
        let page = read_page(&bytes);
        let read = start.elapsed().as_nanos();
        match page {
            Ok(page) => {
                let (families, samples, sum) = (page.families.len(), page.samples, page_sum(&page));
                let start = Instant::now();
                drop(page);
                let dropped = start.elapsed().as_nanos();
                println!("{read} {dropped} {families} {samples} {sum}");
            }
            Err(fault) => println!("{read} 0 line {} {:?}", fault.line, fault.rule),
        }
    }
    Ok(())
}
