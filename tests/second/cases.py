"""About ten thousand packets, well-formed and damaged, from a seed and from docs/PACKETS.md itself.

cases(seed) gives the packets as bytes, no packet twice. Run as a program (cases.py [SEED]), it prints the seed on
standard error and the packets in hex, one a line, on standard output.
"""

import itertools
import random
import re
import sys
from pathlib import Path

from packets import (
    ACKNOWLEDGEMENT, BUNDLE, LAYOUTS, LONGEST, REQUEST, SUMMARY,
    Acknowledgement, AcknowledgementEntry, AcknowledgementGroup, Bundle, Description, Element, Request, RequestEntry,
    RequestGroup, Summary, SummaryGroup, get16, to_hex, write,
)

SEED = 20261117
PAGE = Path(__file__).resolve().parent.parent.parent / "docs" / "PACKETS.md"
KINDS = (BUNDLE, ACKNOWLEDGEMENT, SUMMARY, REQUEST)
NODE = bytes.fromhex("60a047") + bytes(18) + b"\x77"
PEER_GROUP = b"\x50" + b"\x47" * 13


# The page: its packets, each with the number that it must give

def examples():
    return PAGE.read_text(encoding="utf-8").split("\n## Examples\n", 1)[1]


def page_tables():
    """Every worked example as its code block and the bytes of the table below it, joined."""
    for section in examples().split("\n### "):
        block = re.search(r"^```\n([0-9a-f]+)\n```$", section, re.MULTILINE)
        if block:
            rows = re.findall(r"^\| (\d+) \| `([0-9a-f]+)` \|", section, re.MULTILINE)
            yield bytes.fromhex(block[1]), [(int(at), bytes.fromhex(part)) for at, part in rows]


def page_packets():
    """The packets given in hex: code blocks, those in running text, and the table of damaged packets."""
    for text in examples().splitlines():
        row = re.match(r"\| `([0-9a-f]+)` \|.*\| ([67])? ?\|$", text)
        if row:
            yield bytes.fromhex(row[1]), int(row[2] or 0)
        elif not text.startswith("|"):
            for whole, part in re.findall(r"^([0-9a-f]{16,})$|`([0-9a-f]{16,})`", text):
                yield bytes.fromhex(whole or part), 0


def described_packets():
    """The three bundles that the page describes in words."""
    for length, number in ((276, 0), (280, 7), (22, 7)):
        yield sized(empty(BUNDLE) + element_bytes(length - 20)), number


def page():
    return [*page_packets(), *described_packets()]


# Bytes

def put16(data, place, value):
    return data[:place] + (value & 0xffff).to_bytes(2, "big") + data[place + 2:]


def sized(data):
    """The packet with its length field put right."""
    return put16(data, 2, len(data))


def change(data, place, value):
    return data[:place] + bytes([value & 0xff]) + data[place + 1:]


def kind_of(data):
    return get16(data, 0)


def layout_of(data):
    return LAYOUTS[kind_of(data)]


def places(data):
    """Where the groups of a well-formed packet begin."""
    place, found = layout_of(data).start, []
    while place < len(data):
        found.append(place)
        place += get16(data, place + 2)
    return found


def reserved(data):
    """The offsets of all reserved bytes of a well-formed packet."""
    yield 7
    if kind_of(data) == SUMMARY:
        yield from (10, 11)
    for place in places(data):
        if kind_of(data) == BUNDLE:
            yield from (place + 6, place + 7)
        if kind_of(data) == SUMMARY:
            yield from (place + 40, place + 41)
            for entry in range(place + 44, place + get16(data, place + 2), 16):
                yield from (entry + 2, entry + 3)


def empty(kind):
    """A packet without groups."""
    rest = NODE + PEER_GROUP if kind == BUNDLE else bytes(LAYOUTS[kind].start - 8)
    return sized(bytes([0, kind, 0, 0, 1, 1, 1, 0]) + rest)


def element_bytes(body):
    """An element with a body of any length, also one that is not allowed."""
    return put16(b"\0\x40", 2, 20 + body) + bytes([0, 97, 0, 0, 0, 0, 0, 1, 0, 0, 0, 5, 0, 7, 14, 16]) + bytes(body)


# Well-formed contents

def some_bytes(rng, size):
    return rng.choice((bytes(size), b"\xff" * size, rng.randbytes(size), rng.randbytes(size), rng.randbytes(size)))


def some_16(rng):
    return rng.choice((0, 1, 97, 0x8000, 0xffff, rng.getrandbits(16), rng.getrandbits(16)))


def some_32(rng):
    return rng.choice((0, 1, 2, 0x80000000, 0xffffffff, rng.getrandbits(32), rng.getrandbits(32)))


def node_id(rng):
    return rng.choice((NODE, some_bytes(rng, 22)))


def peer_group_id(rng):
    return rng.choice((PEER_GROUP, some_bytes(rng, 14)))


def versions(rng):
    return rng.choice((1, rng.getrandbits(8))), rng.choice((1, rng.getrandbits(8)))


def element(rng, body):
    return Element(some_16(rng), some_32(rng), some_bytes(rng, 8), some_bytes(rng, body))


def bundle(rng, bodies):
    return Bundle(*versions(rng), node_id(rng), peer_group_id(rng), [element(rng, body) for body in bodies])


def acknowledgement(rng, counts):
    return Acknowledgement(*versions(rng), [AcknowledgementGroup(node_id(rng), [
        AcknowledgementEntry(some_32(rng), some_bytes(rng, 8)) for _ in range(count)]) for count in counts])


def summary(rng, counts):
    return Summary(*versions(rng), some_16(rng), some_32(rng), [SummaryGroup(node_id(rng), peer_group_id(rng), [
        Description(some_16(rng), some_32(rng), some_bytes(rng, 8)) for _ in range(count)]) for count in counts])


def request(rng, counts):
    return Request(*versions(rng), [RequestGroup(node_id(rng), [
        RequestEntry(some_32(rng)) for _ in range(count)]) for count in counts])


MAKERS = {BUNDLE: bundle, ACKNOWLEDGEMENT: acknowledgement, SUMMARY: summary, REQUEST: request}


def divided(rng, groups, entries):
    """Counts of so many groups that have so many entries together; some are often 0."""
    cuts = sorted(rng.choice((0, entries, rng.randint(0, entries))) for _ in range(groups - 1))
    return [after - before for before, after in zip([0, *cuts], [*cuts, entries])]


def bodies_within(rng, room):
    """Lengths of bodies whose elements fit into the room."""
    bodies, most = [], rng.choice((0, 1, 1, 2, 3, 5, 100))
    while len(bodies) < most and room >= 20:
        body = rng.choice((0, 0, 4, 8, 252, 256, 4 * rng.randint(0, 64)))
        body = min(body, (room - 20) // 4 * 4)
        bodies.append(body)
        room -= 20 + body
    return bodies


def counts_within(rng, kind, room):
    layout = LAYOUTS[kind]
    groups = min(rng.choice((0, 1, 1, 2, 3, 5, 72)), room // layout.fixed)
    if groups == 0:
        return []
    return divided(rng, groups, rng.randint(0, (room - groups * layout.fixed) // layout.entry))


def any_content(rng, kind):
    room = rng.choice((100, 150, 200, 300, 400, 800, LONGEST)) - LAYOUTS[kind].start
    return MAKERS[kind](rng, bodies_within(rng, room) if kind == BUNDLE else counts_within(rng, kind, room))


def filling_bodies(rng):
    """Lengths of bodies whose bundle has exactly 2,048 bytes."""
    bodies, room = [], LONGEST - 44
    while room > 0:
        body = 4 * rng.randint(0, 64)
        over = room - 20 - body
        if over < 20:
            body = room - 20 if room <= 276 else body - 20
        bodies.append(body)
        room -= 20 + body
    return bodies


def filling_counts(rng, kind):
    """Counts whose packet has exactly 2,048 bytes."""
    layout = LAYOUTS[kind]
    room = LONGEST - layout.start
    left = {groups: room - layout.fixed * groups for groups in range(1, room // layout.fixed + 1)}
    groups = rng.choice([groups for groups in left if left[groups] % layout.entry == 0])
    return divided(rng, groups, left[groups] // layout.entry)


def full_content(rng, kind):
    return MAKERS[kind](rng, filling_bodies(rng) if kind == BUNDLE else filling_counts(rng, kind))


def largest_contents(rng):
    """The most entries and the most groups of the page's sizes."""
    yield bundle(rng, [0] * 100)
    for kind, entries, groups in ((ACKNOWLEDGEMENT, 167, 72), (SUMMARY, 124, 46), (REQUEST, 503, 72)):
        yield MAKERS[kind](rng, [entries])
        yield MAKERS[kind](rng, [0] * groups)


def contents(rng):
    for kind in KINDS:
        yield from (MAKERS[kind](rng, shape) for shape in ([], [0], [0, 0], [4, 0], [0, 4, 0]))
        yield from (any_content(rng, kind) for _ in range(450))
        yield from (full_content(rng, kind) for _ in range(12))
    yield from (bundle(rng, bodies) for bodies in itertools.product((0, 4, 252, 256), repeat=2))
    yield from largest_contents(rng)


# Samples to be damaged: the worked examples, and others of two or more groups

SHAPES = {
    BUNDLE: ([0, 8], [4, 0, 256], [12, 24, 0, 4]),
    ACKNOWLEDGEMENT: ([1, 0], [3, 1], [0, 5, 2]),
    SUMMARY: ([1, 1], [0, 2], [5, 0, 1]),
    REQUEST: ([2, 1], [0, 9, 0], [6, 5]),
}


def worked():
    return [block for block, _ in page_tables()]


def samples(rng):
    """Twelve and the four worked examples; the first eight have two of each type."""
    made = [write(MAKERS[kind](rng, SHAPES[kind][turn])) for turn in range(3) for kind in KINDS]
    return worked() + made


# Packets still read

def well_formed(rng):
    yield from (write(content) for content in contents(rng))


def reserved_bytes(rng):
    for _ in range(60):
        for kind in KINDS:
            data = write(any_content(rng, kind))
            part = rng.choice((0.1, 0.5, 1))
            for place in reserved(data):
                if rng.random() < part:
                    data = change(data, place, rng.randint(1, 255))
            yield data


def flag_bits(rng):
    bits = [1 << bit for bit in range(16)]
    for flags in [0, 0xffff, *bits, *(0xffff ^ bit for bit in bits), *(rng.getrandbits(16) for _ in range(30))]:
        yield put16(write(any_content(rng, SUMMARY)), 8, flags)
        yield put16(empty(SUMMARY), 8, flags)


# One fault

def header_values(rng):
    for value in range(256):
        yield change(rng.choice(worked()), 4, value)
    for value in (*range(16), 64, 0x0102, 0x0200, 0x0300, 0x0400, 0x0500, 0x0502, 0x8002, 0xff05, 0xffff):
        yield from (put16(data, 0, value) for data in worked())
    for value in (0, 7, 8, 15, 16, 43, 44, LONGEST - 1, LONGEST, LONGEST + 1, 0x5800, 0xffff):
        yield from (put16(data, 2, value) for data in worked())
    for data in worked():
        yield from (put16(data, 2, len(data) + by) for by in (-4, -1, 1, 4, 256))


def field_damage(rng):
    """Each byte changed, of the header, of the part after it and of the first group's fixed part."""
    for data in samples(rng)[:8]:
        for place in range(layout_of(data).start + layout_of(data).fixed):
            for value in (data[place] + 1, data[place] - 1, data[place] ^ 0x80):
                yield change(data, place, value)


def truncation(rng):
    """Every length; with the length field as it was, and put right where there is one."""
    for data in samples(rng)[:12]:
        yield from (data[:length] for length in range(len(data)))
        yield from (sized(data[:length]) for length in range(4, len(data)))


def lengths_off(rng):
    """Group lengths and counts off; also with the bytes of the group put in or taken out to suit the length."""
    for data in samples(rng):
        layout = layout_of(data)
        for place in places(data):
            length = get16(data, place + 2)
            for by in (-4, -1, 1, 4):
                off = put16(data, place + 2, length + by)
                yield off
                end = place + length
                yield sized(off[:end] + bytes(by) + off[end:] if by > 0 else off[:end + by] + off[end:])
                if layout.entry:
                    yield put16(data, place + layout.count_at, get16(data, place + layout.count_at) + by)


def group_lengths(rng):
    """Group lengths at the edges of the fixed parts, of the packet's end and of 16 bits."""
    for data in samples(rng):
        for place in places(data):
            left = len(data) - place
            edges = (0, 1, 2, 3, 4, 5, 19, 20, 21, 24, 27, 28, 29, 43, 44, 45, 276, 280, 0x7fff, 0x8000, 0xffff)
            for length in (*edges, left - 4, left - 1, left, left + 1, left + 4, 0x10000 - place):
                yield put16(data, place + 2, length)


def count_values(rng):
    """Counts that suit the length only in a calculation of 16 bits, and other far ones."""
    for data in samples(rng):
        layout = layout_of(data)
        for place in places(data) if layout.entry else ():
            at = place + layout.count_at
            here = get16(data, at)
            wraps = [here + times * 0x1000 for times in range(1, 16) if times * 0x1000 * layout.entry % 0x10000 == 0]
            for count in (*wraps, 0, 1, here + 2, here * 256, 0x7fff, 0x8000, 0xffff):
                yield put16(data, at, count)


def body_lengths(rng):
    for length in (*range(6), *range(250, 261), 264, 276, 508, 512, 1024, 1800):
        for before, after in itertools.product((0, 1, 3), (0, 1)):
            data = write(bundle(rng, [8] * before)) + element_bytes(length) + element_bytes(4) * after
            yield sized(data)


def group_types(rng):
    others = (64, 384, 512, 513, 0, 63, 65, 0x4000, 0x8001, 0x0002, 0x0102, 0xffff)
    for data in samples(rng):
        for place, other in itertools.product(places(data), others):
            yield put16(data, place, other)


def trailing(rng):
    """One to four bytes after the last group, or where the first one should begin."""
    for data in [*samples(rng), *(empty(kind) for kind in KINDS)]:
        layout = layout_of(data)
        group = put16(put16(bytes(4), 0, layout.group_type), 2, layout.fixed)
        for rest in (group, put16(group, 2, 4), put16(group, 2, 0), bytes(4), b"\xff" * 4, rng.randbytes(4)):
            yield from (sized(data + rest[:size]) for size in (1, 2, 3, 4))


def last_groups(rng):
    """A last group with fewer bytes than its fixed part, and lengths about what is left and about the fixed part."""
    for kind in KINDS:
        layout = LAYOUTS[kind]
        for left in range(4, layout.fixed, 3):
            for length in (left - 1, left, left + 1, layout.fixed - 1, layout.fixed, layout.fixed + 4):
                group = put16(put16(bytes(left), 0, layout.group_type), 2, length)
                yield sized(write(MAKERS[kind](rng, rng.choice(([], [0], [4, 0])))) + group)


def packet_lengths(rng):
    """Packets at the edges of the length, with the length field right and not."""
    for kind in KINDS:
        full = write(full_content(rng, kind))
        long = [full + bytes(more) for more in (1, 2, 3, 4, 20, 28, 2048)]
        long += [full + write(any_content(rng, kind))[layout_of(full).start:] + bytes(4) for _ in range(5)]
        for data in (full, full[:LONGEST - 1], full[:LONGEST - 4], *long, *(full[:size] for size in (0, 7, 8))):
            yield data
            if len(data) >= 4:
                yield sized(data)
                yield put16(data, 2, LONGEST)
                yield put16(data, 2, 8)
        # Their lengths are 0 and 8 in 16 bits.
        yield from (sized(empty(kind) + bytes(size - len(empty(kind)))) for size in (0x10000, 0x10008))


# Several faults at once, for the order

def header_faults(rng):
    """All choices of the four header faults that do not depend on the size, each with and without a group fault."""
    for data in samples(rng)[:8]:
        for length, version, kind, cut, group in itertools.product((False, True), repeat=5):
            start = layout_of(data).start
            made = put16(data, start, 7) if group else data
            made = sized(made[:max(8, start - 4)]) if cut else made
            made = put16(made, 2, len(made) + 4) if length else made
            made = change(made, 4, 2) if version else made
            yield put16(made, 0, 6) if kind else made


def damage(rng, data, place):
    """One change in the group that begins at this place."""
    layout = layout_of(data)
    length = get16(data, place + 2)
    lengths = (0, 3, 4, layout.fixed - 1, layout.fixed, length + 2, length - 4, length + 4, length + 300, 0xffff)
    change_of = rng.randrange(3 if layout.entry else 2)
    if change_of == 0:
        return put16(data, place, rng.choice((64, 384, 512, 513)))
    if change_of == 1:
        return put16(data, place + 2, rng.choice(lengths))
    return put16(data, place + layout.count_at, rng.choice((0, 1, 2, 0xffff)))


def group_faults(rng):
    """Two or three changes, in one group or in several, sometimes cut or lengthened as well."""
    given = [data for data in samples(rng) if len(places(data)) > 1]
    for _ in range(1000):
        data = rng.choice(given)
        found = places(data)
        for _ in range(rng.choice((2, 2, 3))):
            data = damage(rng, data, rng.choice(found))
        if rng.random() < 0.3:
            data = data[:-rng.randint(1, 30)]
        elif rng.random() < 0.3:
            data += rng.randbytes(rng.randint(1, 30))
        yield sized(data)


# Random bytes

def random_size(rng):
    return rng.choice((rng.randint(0, 12), rng.randint(8, 64), rng.randint(40, 300), rng.randint(8, LONGEST)))


def random_bytes(rng):
    yield from (rng.randbytes(random_size(rng)) for _ in range(250))
    yield from (rng.randbytes(rng.randint(LONGEST + 1, LONGEST + 40)) for _ in range(10))


def headed(rng, kind, rest):
    return sized(bytes([0, kind, 0, 0, 1]) + rng.randbytes(3) + rest)


def random_after_header(rng):
    """A valid header, random bytes behind it."""
    for _ in range(300):
        yield headed(rng, rng.choice(KINDS), rng.randbytes(random_size(rng)))


def random_groups(rng):
    """A valid header and groups of the right type, most of them with the right length; the rest is random."""
    for _ in range(900):
        kind = rng.choice(KINDS)
        layout = LAYOUTS[kind]
        rest = rng.randbytes(layout.start - 8)
        for _ in range(rng.randint(0, 4)):
            count = rng.choice((0, 1, 2, 5))
            group = rng.randbytes(layout.fixed + (layout.entry or 4) * count)
            length = len(group) + rng.choice((0, 0, 0, 0, 0, 0, 1, -1, 4, -4, 12))
            group = put16(put16(group, 0, layout.group_type), 2, length)
            if layout.entry:
                group = put16(group, layout.count_at, count + rng.choice((0, 0, 0, 0, 0, 0, 1, -1)))
            rest += group
        yield headed(rng, kind, rest + rng.randbytes(rng.choice((0, 0, 0, 0, 1, 2, 3, 4))))


FAMILIES = (
    well_formed, reserved_bytes, flag_bits,
    header_values, field_damage, truncation, lengths_off, group_lengths, count_values, body_lengths, group_types,
    trailing, last_groups, packet_lengths,
    header_faults, group_faults,
    random_bytes, random_after_header, random_groups,
)


def cases(seed=SEED):
    rng = random.Random(seed)
    made = itertools.chain((data for data, _ in page()), *(family(rng) for family in FAMILIES))
    yield from dict.fromkeys(made)


if __name__ == "__main__":
    chosen = int(sys.argv[1]) if len(sys.argv) > 1 else SEED
    print(f"seed {chosen}", file=sys.stderr)
    for data in cases(chosen):
        print(to_hex(data))
