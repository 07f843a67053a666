#!/bin/sh
# What a sample costs `federation_page::gather`, and `series_select::select` of what was gathered, beside what it costs
# `text` of it, for 100 targets whose pages have 2,000 samples each: the least time of several runs, in which all take
# turns, and the instructions beside. One in a thousand of the samples is selected by the names of families, one in 250
# by a label. The ratio of times is to be at most 2, and of selecting by names at most a tenth. Needs rt, python3 and
# valgrind. Run from anywhere: bench/gather.sh [SAMPLES]
set -eu
samples=${1:-2000}
. "$(dirname "$0")/workspace.sh"
take_crates federation_page series_select text_grammar
add_program time_gather "federation_page series_select text_grammar page_feeding line_scan open_writing page_model label_sets" <<'MAIN'
//! Reads the page on the input once for each of 100 targets, and gathers what they show, or writes what was gathered, as
//! often as asked.
#![tactic(auto)]

ghost use Rattle.std.specs.Prelude.{◌≡◌, ◌+◌, ◌<◌, ◌≤◌, ◌^◌, ◌∷◌, [], length, IfOk};
ghost use Rattle.page_model.specs.declared.format.Format.TheVariants.{Text as text_format};
ghost use Rattle.page_model.specs.declared.format.Treatment.TheVariants.{Scraped};
ghost use Rattle.line_scan.specs.LineReading.{setting_of};
ghost use Rattle.page_feeding.specs.PageFeeding.{Answers};
ghost use Rattle.open_writing.specs.OpenForms.{IsOpenForm};
ghost use Rattle.federation_page.specs.Gathering.{AreShowable, IsShowable};

mod asked;
mod told;

use crate::asked::{input, number, words};
use crate::told::tell;
use federation_page::{gather, text};
use label_sets::{List, Text};
use page_model::page_laws::right_pages;
use page_model::{Page, PageFault, Shown, Treatment};
use series_select::{Selector, parse, select};
use std::alloc::{AllocError, Global};
use std::io;
use std::vec::IntoIter;
use text_grammar::TextPage;

/// The page that these bytes say.
fn page_of(alloc: Global, bytes: &[u8]) -> Result<Page, PageFault>
    requires { length bytes.now < 2 ^ 31 }
    ensures { Answers (setting_of text_format Scraped 200000) bytes.now result }
{
    let Ok(mut page) = TextPage::new(alloc, Treatment::Scraped, 200_000) else {
        return Err(PageFault::Memory);
    };
    match page.feed(bytes) {
        Ok(()) => page.finish(),
        Err(fault) => Err(fault),
    }
}

/// What the target at a place shows, whose job is one byte.
fn shown(alloc: Global, place: u8, bytes: &[u8]) -> Result<Shown, PageFault>
    requires place { place < 100 }
    requires bytes { length bytes.now < 2 ^ 31 }
    ensures job { IfOk result (λ shown. shown.job ≡ (27 + place) ∷ []) }
    ensures showable { IfOk result IsShowable }
{
    right_pages();
    let page = match page_of(alloc, bytes) {
        Ok(page) => page,
        Err(fault) => return Err(fault),
    };
    if page.samples() > 200_000 {
        return Err(PageFault::Memory);
    }
    let Some(job) = Text::from_bytes(alloc, &[27 + place])? else {
        return Err(PageFault::Memory);
    };
    let Some(instance) = Text::from_bytes(alloc, b"localhost:8080")? else {
        return Err(PageFault::Memory);
    };
    Ok(Shown {
        job,
        instance,
        moment: Some(10),
        page,
    })
}

/// What 100 targets show.
fn all_shown(alloc: Global, bytes: &[u8]) -> Result<Vec<Shown>, PageFault>
    requires { length bytes.now < 2 ^ 31 }
    ensures { IfOk result (λ all. AreShowable all.items) }
{
    let mut all = Vec::with_capacity(alloc, 100)?;
    for place in 0..100u8 {
        all.push(shown(alloc, place, bytes)?)?;
    }
    Ok(all)
}

/// Gathers so many times, and gives how many samples that were.
fn gathered(alloc: Global, shown: &[Shown], turns: u32) -> Result<u64, AllocError>
    requires { AreShowable shown.now }
{
    let mut samples = 0u64;
    for _ in 0..turns {
        let page = gather(alloc, shown)?;
        samples = samples.wrapping_add(u64::from(page.samples()));
    }
    Ok(samples)
}

/// Writes the page so many times, and gives how many bytes that were.
fn written(alloc: Global, page: &Page, turns: u32) -> Result<u64, AllocError> {
    let mut bytes = 0u64;
    for _ in 0..turns {
        let mut out = Vec::with_capacity(alloc, page.samples() as usize * 200)?;
        text(page, &mut out)?;
        bytes = bytes.wrapping_add(out.len() as u64);
    }
    Ok(bytes)
}

/// The selectors that words are.
fn selectors(alloc: Global, words: IntoIter<String>) -> Result<List<Selector>, AllocError> {
    let mut list = Vec::new(alloc);
    for word in words {
        if let Ok(selector) = parse(alloc, word.as_bytes()) {
            list.push(selector)?;
        }
    }
    List::from_vec(list)
}

/// Selects so many times, and gives how many samples that were.
fn selected(
    alloc: Global,
    page: &Page,
    list: &List<Selector>,
    turns: u32,
) -> Result<u64, AllocError>
    requires { IsOpenForm page.now }
{
    let mut samples = 0u64;
    for _ in 0..turns {
        let left = select(alloc, page, list)?;
        samples = samples.wrapping_add(u64::from(left.samples()));
    }
    Ok(samples)
}

fn main(rt: HostRuntime) -> io::Result<()> {
    let bytes = input(&rt)?;
    if bytes.len() > 1_000_000_000 {
        println!(rt; "too long")?;
        return Ok(());
    }
    let mut words = words(&rt)?;
    let form = words.next();
    let turns = number(words.next(), 0);
    let alloc = rt.alloc();
    let shown = match all_shown(alloc, bytes.as_slice()) {
        Ok(shown) => shown,
        Err(fault) => return tell(&rt, fault),
    };
    if form.is_some_and(|word| word.as_str() == "gather") {
        println!(rt; "{}", gathered(alloc, shown.as_slice(), turns)?)?;
        return Ok(());
    }
    let page = gather(alloc, shown.as_slice())?;
    let list = selectors(alloc, words)?;
    if list.is_empty() {
        println!(rt; "{}", written(alloc, &page, turns)?)?;
        return Ok(());
    }
    println!(rt; "{}", selected(alloc, &page, &list, turns)?)
}
MAIN

# What is proved of it by hand.
proofs=$work/crates/time_gather/proofs
for name in page_of shown all_shown; do mkdir -p "$proofs/$name"; done
echo 'mod Lettered' >"$proofs/Lib.antt"
cat >"$proofs/Lettered.antt" <<'END'
-- Targets whose jobs are single bytes, one after the other.
use Rattle.std.proofs.Common.{◌≡◌, ℕ, suc, ◌+◌, ◌≤◌, ◌<◌, Bool, true, false, List, [], ◌∷◌, ◌++◌, ◌&&◌, bytes_eq, length, All, refl, sym, ap, subst, ◌∙◌, arith}
use Rattle.std.specs.Prelude.{⊤}
use Rattle.std.specs.List.{AllByRecursion, IsDistinct}
use Rattle.std.specs.Str.{IsUtf8}
use Rattle.std.proofs.lemmas.Str.{is_utf8-from_IsUtf8}
use Rattle.std.proofs.lemmas.List.Elements.{All-nil, All-cons}
use Rattle.std.proofs.lemmas.Slice.Eq.{bytes_eq-Decides}
use Rattle.page_model.specs.declared.event.Shown.{Shown}
use Rattle.federation_page.specs.Gathering.{is_one_target, IsTargetName, IsShowable, AreShowable}

pub name_of : (most : ℕ) (given name : List ℕ) → IsUtf8 name → 1 ≤ length name → length name ≤ most → given ≡ name → IsTargetName most given
name_of most given name utf8 some short same = subst (IsTargetName most) (sym same) (record { text = is_utf8-from_IsUtf8 name utf8; some = some; short = short })

abbrev pub AreLettered : ℕ → List Shown → Type 0
AreLettered place [] = ⊤
AreLettered place (s ∷ more) = IsShowable s × (s.job ≡ (27 + place) ∷ []) × AreLettered (place + 1) more

pub one_more : (place : ℕ) (all : List Shown) (s : Shown) → AreLettered place all → IsShowable s → s.job ≡ (27 + (place + length all)) ∷ [] → AreLettered place (all ++ s ∷ [])
one_more place [] s h able job = (able, job ∙ ap (λ n. (27 + n) ∷ []) (let e : place + 0 ≡ place = omega arith in e), tt)
one_more place (x ∷ all) s h able job = (h.0, h.1, one_more (place + 1) all s h.2 able (job ∙ ap (λ n. (27 + n) ∷ []) (let e : place + suc (length all) ≡ place + 1 + length all = omega arith in e)))

abbrev head_of : List ℕ → ℕ
head_of [] = 0
head_of (x ∷ xs) = x

not_true : (b : Bool) → (b ≡ true → ⊥) → b ≡ false
not_true true never = absurd (never refl)
not_true false never = refl

bytes_differ : (s t : Shown) (n m : ℕ) → n < m → s.job ≡ (27 + n) ∷ [] → t.job ≡ (27 + m) ∷ [] → is_one_target s t ≡ false
bytes_differ s t n m less a b =
    let other : bytes_eq s.job t.job ≡ true → ⊥ = λ same. let e : 27 + n ≡ 27 + m = ap head_of (sym a ∙ (bytes_eq-Decides s.job t.job).0 same ∙ b) in omega arith in
    let e : bytes_eq s.job t.job ≡ false = not_true (bytes_eq s.job t.job) other in
    rw e refl

apart : (s : Shown) (n place : ℕ) (all : List Shown) → s.job ≡ (27 + n) ∷ [] → n < place → AreLettered place all → AllByRecursion (λ t. is_one_target s t ≡ false) all
apart s n place [] job less h = tt
apart s n place (t ∷ all) job less h = (bytes_differ s t n place less job h.1, apart s n (place + 1) all job (omega arith) h.2)

distinct : (place : ℕ) (all : List Shown) → AreLettered place all → IsDistinct is_one_target all
unfolding IsDistinct
distinct place [] h = tt
distinct place (s ∷ all) h = (apart s place (place + 1) all h.1 (omega arith) h.2, distinct (place + 1) all h.2)

each : (place : ℕ) (all : List Shown) → AreLettered place all → All IsShowable all
each place [] h = All-nil IsShowable
each place (s ∷ all) h = All-cons IsShowable s all h.0 (each (place + 1) all h.2)

pub lettered : (all : List Shown) → length all ≤ 256 → AreLettered 0 all → AreShowable all
lettered all few h = record { few = few; distinct = distinct 0 all h; each = each 0 all h }
END
cat >"$proofs/page_of/Answers.antt" <<'END'
use Rattle.std.proofs.Common.{◌≡◌, ℕ, List, [], ◌++◌, Err, append-nil, subst, arith}
use Rattle.page_model.specs.declared.fault.PageFault.{PageFault}
use Rattle.page_model.specs.declared.fault.PageFault.TheVariants as faults
use Rattle.page_model.specs.declared.format.Treatment.TheVariants.{Scraped}
use Rattle.page_model.specs.Written.{Setting}
use Rattle.page_model.specs.Pages.{FirstFault}
use Rattle.page_feeding.specs.PageFeeding.{Refuses, Answers}
use Rattle.time_gather.proofs.page_of.Goals as goal

refused_now : (st : Setting) (bytes : List ℕ) (fault : PageFault) → Refuses st bytes fault → Answers st bytes (Err fault)
refused_now st bytes (faults.Refused line rule) x = subst (λ (b : List ℕ). FirstFault st b (line, rule)) (append-nil bytes) (x [])
refused_now st bytes faults.Memory x = tt

pub feed-requires : goal.feed-requires
feed-requires c = omega (arith, c.in-Ok.ensures.lines_stand.count, c.requires)

pub returns-in-Err : goal.returns-in-Err
returns-in-Err c = refused_now _ c.args.bytes.now c.in-Err.fault (c.in-Err.ensures.answer Scraped 200000 [] c.in-Ok.ensures)
END
cat >"$proofs/shown/Answers.antt" <<'END'
use Rattle.std.proofs.Common.{◌≡◌, ◌+◌, ◌∷◌, [], List, ℕ, Option, Some, refl, sym, subst, arith}
use Rattle.std.specs.Prelude.{IsUtf8, SomeIff, codes}
use Rattle.page_model.specs.declared.format.Format.TheVariants as formats
use Rattle.page_model.specs.declared.format.Treatment.TheVariants.{Scraped}
use Rattle.line_scan.specs.LineReading.{setting_of}
use Rattle.federation_page.specs.Gathering.{IsTargetName}
use Rattle.time_gather.proofs.Lettered.{name_of}
use Rattle.time_gather.proofs.shown.Goals as goal

-- the bytes of a name are text
told_text : (found : Option (List ℕ)) (job bytes : List ℕ) → found ≡ Some job → SomeIff found (IsUtf8 bytes) bytes → IsUtf8 bytes × (job ≡ bytes)
told_text found job bytes is told = let At : Option (List ℕ) → Type 0 = λ o. SomeIff o (IsUtf8 bytes) bytes in let t : SomeIff (Some job) (IsUtf8 bytes) bytes = subst At is told in (t.0, t.1)

pub returns-clause-showable : goal.returns-clause-showable
returns-clause-showable c =
    let j : IsUtf8 ((27 + c.args.place) ∷ []) × (c.in-Some.job ≡ (27 + c.args.place) ∷ []) = told_text c.in_ok-job.field-0 c.in-Some.job ((27 + c.args.place) ∷ []) c.in-Some.is c.in_ok-job.ensures.text in
    let i : IsUtf8 (codes "localhost:8080") × (c.in-Some-2.instance ≡ codes "localhost:8080") = told_text c.in_ok-instance.field-0 c.in-Some-2.instance (codes "localhost:8080") c.in-Some-2.is c.in_ok-instance.ensures.text in record {
      job = name_of 256 c.in-Some.job ((27 + c.args.place) ∷ []) j.0 (omega arith) (omega arith) j.1;
      instance = name_of 262 c.in-Some-2.instance (codes "localhost:8080") i.0 (omega arith) (omega arith) i.1;
      page = (setting_of formats.Text Scraped 200000, refl, c.right_pages.ensures.texts (setting_of formats.Text Scraped 200000) c.args.bytes.now c.in-Ok.page c.in-Ok.ensures);
      samples = omega (arith, c.if-samples-gt200000.false);
    }
END
cat >"$proofs/all_shown/Invariants.antt" <<'END'
use Rattle.std.proofs.Common.{◌≡◌}
use Rattle.time_gather.proofs.Lettered.{AreLettered}
use Rattle.time_gather.proofs.all_shown.Given as goal

abbrev pub invariant-loop-place : goal.invariant-loop-place
invariant-loop-place l = (l.all.len ≡ l.place) × AreLettered 0 l.all.items
END
cat >"$proofs/all_shown/Answers.antt" <<'END'
use Rattle.std.proofs.Common.{◌≡◌, ◌+◌, ℕ, List, [], ◌∷◌, length, ap, ◌∙◌, arith}
use Rattle.time_gather.proofs.Lettered.{one_more, lettered}
use Rattle.time_gather.proofs.all_shown.Goals as goal

pub loop-place-preserved : goal.loop-place-preserved
loop-place-preserved c = (
  omega (arith, c.in_ok-push.ensures.len, c.loop-place.invariant.0),
  rw c.in_ok-push.ensures.items (one_more 0 c.loop-place.all.items c.in_ok-shown.field-0 c.loop-place.invariant.1 c.in_ok-shown.ensures.showable
      (c.in_ok-shown.ensures.job ∙ ap (λ (n : ℕ). (27 + n) ∷ []) (let e : c.loop-place.place ≡ 0 + length c.loop-place.all.items = omega (arith, c.loop-place.invariant.0, c.loop-place.all.ok.0) in e))),
)

pub returns : goal.returns
returns c = lettered c.loop-place.all.items (omega (arith, c.loop-place.invariant.0, c.loop-place.all.ok.0)) c.loop-place.invariant.1
END
add_parts time_gather asked told
build_program time_gather gather 0
node_page "$samples" >"$work/page"

python3 - "$work" "$samples" <<'END'
import subprocess
import sys
import time

WORK, SAMPLES = sys.argv[1], 100 * int(sys.argv[2])
MOST_RATIO = 2
MOST_SELECTING = 0.1
TURNS = {"gather": (1, 4), "write": (1, 4), "by names": (10, 100), "by a label": (2, 10)}
WORDS = {
    "gather": ("gather", []),
    "write": ("write", []),
    "by names": ("select", ["node_goroutines_0", '{__name__="node_goroutines_6"}']),
    "by a label": ("select", ['{handler="/api/v1/volumes/45"}']),
}


def command(form: str, turns: int) -> list[str]:
    """The words of one run."""
    word, selectors = WORDS[form]
    return [f"{WORK}/proved", word, str(turns), *selectors]


def seconds(form: str, turns: int) -> float:
    """The time of one run."""
    with open(f"{WORK}/page", "rb") as page:
        start = time.perf_counter()
        subprocess.run(command(form, turns), stdin=page, stdout=subprocess.DEVNULL, check=True)
        return time.perf_counter() - start


def instructions(form: str, turns: int) -> int:
    """The instructions of one run."""
    words = ["valgrind", "--tool=callgrind", "--callgrind-out-file=/dev/null", *command(form, turns)]
    with open(f"{WORK}/page", "rb") as page:
        said = subprocess.run(words, stdin=page, stdout=subprocess.DEVNULL, stderr=subprocess.PIPE, check=True).stderr
    return int(next(line.split()[-1] for line in said.decode().splitlines() if "Collected" in line))


def a_sample(form: str, few: float, many: float) -> float:
    """What a sample costs of what more turns cost."""
    return (many - few) / (TURNS[form][1] - TURNS[form][0]) / SAMPLES


least = {(form, turns): float("inf") for form in WORDS for turns in TURNS[form]}
for _ in range(7):
    for key in least:
        least[key] = min(least[key], seconds(*key))
times = {form: a_sample(form, *(least[form, turns] for turns in TURNS[form])) for form in WORDS}
counts = {form: a_sample(form, *(instructions(form, turns) for turns in TURNS[form])) for form in WORDS}
for form in ("gather", "by names", "by a label"):
    ratio = times[form] / times["write"]
    print(f"{form}: {times[form] * 1e9:.1f} ns a sample and {counts[form]:.0f} instructions, writing {times['write'] * 1e9:.0f} ns and {counts['write']:.0f}, ratio {ratio:.3f}")
sys.exit(times["gather"] > MOST_RATIO * times["write"] or times["by names"] > MOST_SELECTING * times["write"])
END
