#!/usr/bin/env python3
"""Times `bridge check text` on pages whose keys collide beside the same pages without collisions, in one
run. A page with collisions is to take at most twice as long.

    python3 bench/colliding.py [COUNT [ROUNDS]]                every page (20,000 keys, 5 rounds)
    python3 bench/colliding.py --page KIND WAY COUNT on|off    writes a page with collisions, or without

Kinds of pages:
    samples     a gauge with one label
    long        the same, behind a label of 1,000 bytes that all samples share
    outside     an honest counter of requests by path, where clients choose the paths
    families    families of one sample
    groups      a histogram that has the bucket `+Inf` alone, for each value of a label
    quantiles   one summary with many quantiles

Ways in which they collide, in the hash of the kit (`FoldHasher`, which has no seed):
    packed      all keys have one hash, each hashed as one string of bytes
    bucket      the same, but their hashes share the low 16 bits alone
    second      the first keys have one hash, and so go over to an ordered map; the others share the hash of
                `second` and themselves, by which that map found them while both hashes were of one hasher
    parts       all keys have one hash, each part of them hashed by itself, as a derived `Hash` does

No page is made whose keys share both hashes of the table: the second is SipHash-1-3, and no one can write
down many keys that share it.

The two pages take turns in each round; the least time of each counts. Exit status 1 where a ratio is above
two.
"""

import itertools
import os
import string
import sys
import tempfile
from collections.abc import Callable, Iterator
from typing import NamedTuple

from timing import answer, built_program, seconds

MOST_RATIO = 2.0

MASK = (1 << 64) - 1
MULTIPLIER = 0x9E37_79B9_7F4A_7C15
INITIAL = 0x243F_6A88_85A3_08D3

# More keys than one chain has.
FIRST_KEYS = 100

ALPHANUMERIC = (string.digits + string.ascii_letters).encode()
NAME_CHARS = set(ALPHANUMERIC + b"_:")
PATH_CHARS = set(ALPHANUMERIC + b"-._~!$&()*+,;=:@/")
VALUE_CHARS = set(range(0x20, 0x7F)) - set(b'"\\')

Labels = list[tuple[bytes, bytes]]


# ---- the hash


def number(text: bytes, at: int) -> int:
    """Eight bytes as a number."""
    return int.from_bytes(text[at : at + 8], "little")


def folded(a: int, b: int) -> int:
    """Both halves of a product, joined."""
    product = a * b
    return (product & MASK) ^ (product >> 64)


def before_last(state: int, text: bytes) -> int:
    """The state in front of the last 16 bytes of a text that has more than eight."""
    state = (state + len(text)) & MASK
    for at in range(0, len(text) - 16, 16):
        state = folded(number(text, at) ^ state, number(text, at + 8) ^ MULTIPLIER)
    return state


def written(state: int, text: bytes) -> int:
    """The state after a text."""
    size = len(text)
    if size > 8:
        front = number(text, max(size - 16, 0))
        return folded(front ^ before_last(state, text), number(text, size - 8) ^ MULTIPLIER)
    if size >= 4:
        word = int.from_bytes(text[:4], "little") | int.from_bytes(text[-4:], "little") << 32
    else:
        word = text[0] | text[size // 2] << 8 | text[-1] << 16 if text else 0
    return folded(state ^ word, MULTIPLIER ^ 2 * size)


def hash_of(texts: list[bytes]) -> int:
    """The hash after these texts."""
    state = INITIAL
    for text in texts:
        state = written(state, text)
    return state


# ---- what is hashed of a key


class Key(NamedTuple):
    """A name, labels, or both."""

    name: bytes | None
    labels: Labels | None


def part(text: bytes) -> bytes:
    """A text behind its length."""
    return b"\xff" * (len(text) // 255) + bytes([len(text) % 255]) + text


def packed(key: Key) -> list[bytes]:
    """A key as one string of bytes; a name alone is its own."""
    if key.labels is None:
        return [key.name]
    front = part(key.name) if key.name else b""
    return [front + bytes([len(key.labels)]) + b"".join(part(name) + part(value) for name, value in key.labels)]


def parts(key: Key) -> list[bytes]:
    """A key as a derived `Hash` writes it."""
    texts = [key.name, b"\xff"] if key.name else []
    if key.labels is not None:
        texts.append(len(key.labels).to_bytes(8, "little"))
        texts += [text for label in key.labels for name in label for text in (name, b"\xff")]
    return texts


# ---- pages


class Kind(NamedTuple):
    """Pages of texts: the characters that may stand in a key, the first line, the line of a key, and the
    key. All keys of a page have the same digits `pad`, and each has 16 bytes `last` of its own."""

    chars: set[int]
    head: Callable[[bytes], bytes]
    line: Callable[[bytes, bytes], bytes]
    key: Callable[[bytes, bytes], Key]


LONG = b"x" * 1_000

KINDS = {
    "samples": Kind(
        VALUE_CHARS,
        lambda pad: b"# TYPE m%s gauge\n" % pad,
        lambda pad, last: b'm%s{b="%s"} 1\n' % (pad, last),
        lambda pad, last: Key(b"m" + pad, [(b"b", last)]),
    ),
    "long": Kind(
        VALUE_CHARS,
        lambda pad: b"# TYPE m%s gauge\n" % pad,
        lambda pad, last: b'm%s{a="%s",b="%s"} 1\n' % (pad, LONG, last),
        lambda pad, last: Key(b"m" + pad, [(b"a", LONG), (b"b", last)]),
    ),
    "outside": Kind(
        PATH_CHARS,
        lambda pad: b"# TYPE http_requests_total counter\n",
        lambda pad, last: b'http_requests_total{code="200",path="/%s%s"} 1\n' % (pad, last),
        lambda pad, last: Key(b"http_requests_total", [(b"code", b"200"), (b"path", b"/" + pad + last)]),
    ),
    "families": Kind(
        NAME_CHARS,
        lambda pad: b"",
        lambda pad, last: b"m%s%s 1\n" % (pad, last),
        lambda pad, last: Key(b"m" + pad + last, None),
    ),
    "groups": Kind(
        VALUE_CHARS,
        lambda pad: b"# TYPE h histogram\n",
        lambda pad, last: b'h_bucket{l%s="%s",le="+Inf"} 1\n' % (pad, last),
        lambda pad, last: Key(None, [(b"l" + pad, last)]),
    ),
}



def second(key: Key) -> list[bytes]:
    """A key as the second hash of before met it."""
    return [b"second", *packed(key)]


WAYS = {"packed": packed, "bucket": packed, "second": second, "parts": parts}


def last_at(texts: list[bytes], last: bytes) -> int | None:
    """The text whose last block are these 16 bytes."""
    return next((at for at, text in enumerate(texts) if text.endswith(last) and len(text) % 16 == 0), None)


def colliding(kind: Kind, way: str) -> tuple[bytes, bytes]:
    """Digits, and eight bytes behind them that are the state of the hash, so that nothing is left of it: it is
    0 whatever the next eight bytes are or, for a bucket, just those."""
    form = WAYS[way]
    blank = b"?" * 16
    width = next(width for width in range(6, 22) if last_at(form(kind.key(b"0" * width, blank)), blank) is not None)
    for count in itertools.count():
        pad = b"%0*d" % (width, count)
        texts = form(kind.key(pad, blank))
        at = last_at(texts, blank)
        state = before_last(hash_of(texts[:at]), texts[at])
        front = (state ^ (way == "bucket")).to_bytes(8, "little")
        if kind.chars.issuperset(front):
            return pad, front
    raise AssertionError


def tails(way: str) -> Iterator[bytes]:
    """Eight bytes for each key. For a bucket the first two stay, and the next two change most often."""
    if way != "bucket":
        yield from (b"%08d" % count for count in itertools.count())
    for end in itertools.product(ALPHANUMERIC, repeat=6):
        yield b"00" + bytes(reversed(end))


def lines_of(kind: Kind, way: str, count: int, collide: bool) -> tuple[bytes, bytes]:
    """The first line of a kind of page, and the lines of its keys."""
    pad, front = colliding(kind, way)
    own = front if collide else b"ABCDEFGH"
    lasts = [own + tail for tail in itertools.islice(tails(way), count)]
    shared = 0xFFFF if way == "bucket" else MASK
    hashes = {hash_of(WAYS[way](kind.key(pad, last))) & shared for last in lasts[:100]}
    assert (len(hashes) == 1) == collide
    return kind.head(pad), b"".join(kind.line(pad, last) for last in lasts)


def text_page(kind: Kind, way: str, count: int, collide: bool) -> bytes:
    """A page of one of the kinds."""
    head, lines = lines_of(kind, way, count, collide)
    if way != "second":
        return head + lines
    first_head, first_lines = lines_of(kind, "packed", FIRST_KEYS, collide)
    return first_head + first_lines + (head if head != first_head else b"") + lines


def quantile_page(count: int, collide: bool) -> bytes:
    """A summary whose quantiles have digits of 128 bits with one low half, which is what a derived `Hash`
    meets first: the state of the hash, so that nothing is left of it."""
    low = (INITIAL + 16) & MASK
    lines = [b"# TYPE s summary\n"]
    for high in itertools.count(1 << 60):
        digits = high << 64 | low if collide else 10**36 + (high << 1 | 1)
        if len(lines) > count:
            return b"".join(lines)
        if digits % 10:
            lines.append(b's{quantile="0.%d"} 1\n' % digits)
    raise AssertionError


def page(kind: str, way: str, count: int, collide: bool) -> bytes:
    """A page that collides, or the one beside it."""
    return quantile_page(count, collide) if kind == "quantiles" else text_page(KINDS[kind], way, count, collide)


def ratio(program: str, kind: str, way: str, count: int, rounds: int) -> float:
    """How many times as long a page with collisions takes."""
    with tempfile.TemporaryDirectory() as folder:
        paths = {collide: os.path.join(folder, str(collide)) for collide in (True, False)}
        for collide, path in paths.items():
            with open(path, "wb") as out:
                out.write(page(kind, way, count, collide))
            if not answer(program, path).startswith("ok "):
                sys.exit(f"{kind}, {way}: {answer(program, path)}")
        times = {collide: [] for collide in paths}
        for _ in range(rounds):
            for collide, path in paths.items():
                times[collide].append(seconds([program, "check", "text"], path))
    with_collisions, without = min(times[True]), min(times[False])
    print(
        f"{kind}, {way}: {with_collisions * 1e3:.1f} ms with collisions, {without * 1e3:.1f} ms without;"
        f" ratio {with_collisions / without:.2f}, at most {MOST_RATIO:.2f}",
        flush=True,
    )
    return with_collisions / without


def main() -> int:
    words = sys.argv[1:]
    if words[:1] == ["--page"]:
        kind, way, count, collide = words[1:]
        sys.stdout.buffer.write(page(kind, way, int(count), collide == "on"))
        return 0
    count = int(words[0]) if words else 20_000
    rounds = int(words[1]) if len(words) > 1 else 5
    program = built_program()
    ratios = [ratio(program, kind, way, count, rounds) for kind in KINDS for way in WAYS]
    ratios.append(ratio(program, "quantiles", "parts", count, rounds))
    return 1 if max(ratios) > MOST_RATIO else 0


if __name__ == "__main__":
    sys.exit(main())
