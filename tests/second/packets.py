"""Second reader and writer of the four packets, made from docs/PACKETS.md alone.

read(data) gives a Fault or a content, write(content) gives bytes, line(data) gives one line of text for a packet.
Run as a program, it reads packets in hex from standard input, one a line, and prints the line of each.
"""

import sys
from dataclasses import dataclass

BUNDLE, ACKNOWLEDGEMENT, SUMMARY, REQUEST = 2, 3, 4, 5
HEADER = 8
LONGEST = 2048
LONGEST_BODY = 256


@dataclass(frozen=True)
class Layout:
    start: int          # where the groups begin
    group_type: int
    fixed: int          # bytes of a group before its entries or body
    count_at: int = 0   # offset of the count in a group; an element has none
    entry: int = 0      # bytes of one entry


LAYOUTS = {
    BUNDLE: Layout(44, 64, 20),
    ACKNOWLEDGEMENT: Layout(8, 384, 28, 26, 12),
    SUMMARY: Layout(16, 512, 44, 42, 16),
    REQUEST: Layout(8, 513, 28, 26, 4),
}


@dataclass(frozen=True)
class Fault:
    number: int
    name: str
    place: int


@dataclass(frozen=True)
class Element:
    type: int
    number: int
    instance: bytes
    body: bytes


@dataclass(frozen=True)
class Bundle:
    newest: int
    oldest: int
    node: bytes
    peer_group: bytes
    elements: list


@dataclass(frozen=True)
class AcknowledgementEntry:
    number: int
    instance: bytes


@dataclass(frozen=True)
class AcknowledgementGroup:
    node: bytes
    entries: list


@dataclass(frozen=True)
class Acknowledgement:
    newest: int
    oldest: int
    groups: list


@dataclass(frozen=True)
class Description:
    type: int
    number: int
    instance: bytes


@dataclass(frozen=True)
class SummaryGroup:
    node: bytes
    peer_group: bytes
    entries: list


@dataclass(frozen=True)
class Summary:
    newest: int
    oldest: int
    flags: int
    ds_number: int
    groups: list


@dataclass(frozen=True)
class RequestEntry:
    number: int


@dataclass(frozen=True)
class RequestGroup:
    node: bytes
    entries: list


@dataclass(frozen=True)
class Request:
    newest: int
    oldest: int
    groups: list


# Checking

def get16(data, place):
    return int.from_bytes(data[place:place + 2], "big")


def get32(data, place):
    return int.from_bytes(data[place:place + 4], "big")


def header_fault(data):
    if len(data) < HEADER:
        return Fault(6, "short", 0)
    if len(data) > LONGEST:
        return Fault(6, "long", 0)
    if get16(data, 2) != len(data):
        return Fault(6, "length", 2)
    if data[4] != 1:
        return Fault(6, "version", 4)
    if get16(data, 0) not in LAYOUTS:
        return Fault(6, "type", 0)
    if len(data) < LAYOUTS[get16(data, 0)].start:
        return Fault(6, "cut", 8)
    return None


def group_fault(data, layout, place):
    """The name of the first fault of the group at this place, or None."""
    left = len(data) - place
    if left < 4:
        return "group-cut"
    if get16(data, place) != layout.group_type:
        return "group-type"
    length = get16(data, place + 2)
    if length < layout.fixed:
        return "group-short"
    if length > left:
        return "group-long"
    if layout.entry == 0:
        return body_fault(length - layout.fixed)
    return count_fault(data, layout, place, length)


def body_fault(length):
    return "body" if length > LONGEST_BODY or length % 4 != 0 else None


def count_fault(data, layout, place, length):
    count = get16(data, place + layout.count_at)
    return "count" if length != layout.fixed + layout.entry * count else None


def groups_fault(data):
    layout = LAYOUTS[get16(data, 0)]
    place = layout.start
    while place < len(data):
        name = group_fault(data, layout, place)
        if name is not None:
            return Fault(7, name, place)
        place += get16(data, place + 2)
    return None


# Reading; every function below is given a packet, group or entry without fault

def read(data):
    fault = header_fault(data) or groups_fault(data)
    if fault is not None:
        return fault
    return READERS[get16(data, 0)](data, data[5], data[6])


def groups_of(data):
    """The groups of a packet, each as its own bytes."""
    place = LAYOUTS[get16(data, 0)].start
    groups = []
    while place < len(data):
        length = get16(data, place + 2)
        groups.append(data[place:place + length])
        place += length
    return groups


def entries_of(group, kind):
    """The entries of a group, each as its own bytes."""
    layout = LAYOUTS[kind]
    return [group[at:at + layout.entry] for at in range(layout.fixed, len(group), layout.entry)]


def read_bundle(data, newest, oldest):
    elements = [read_element(group) for group in groups_of(data)]
    return Bundle(newest, oldest, data[8:30], data[30:44], elements)


def read_element(group):
    return Element(get16(group, 4), get32(group, 8), group[12:20], group[20:])


def read_acknowledgement(data, newest, oldest):
    return Acknowledgement(newest, oldest, [read_acknowledgement_group(group) for group in groups_of(data)])


def read_acknowledgement_group(group):
    entries = [AcknowledgementEntry(get32(entry, 0), entry[4:12]) for entry in entries_of(group, ACKNOWLEDGEMENT)]
    return AcknowledgementGroup(group[4:26], entries)


def read_summary(data, newest, oldest):
    groups = [read_summary_group(group) for group in groups_of(data)]
    return Summary(newest, oldest, get16(data, 8), get32(data, 12), groups)


def read_summary_group(group):
    entries = [Description(get16(entry, 0), get32(entry, 4), entry[8:16]) for entry in entries_of(group, SUMMARY)]
    return SummaryGroup(group[4:26], group[26:40], entries)


def read_request(data, newest, oldest):
    return Request(newest, oldest, [read_request_group(group) for group in groups_of(data)])


def read_request_group(group):
    return RequestGroup(group[4:26], [RequestEntry(get32(entry, 0)) for entry in entries_of(group, REQUEST)])


READERS = {
    BUNDLE: read_bundle,
    ACKNOWLEDGEMENT: read_acknowledgement,
    SUMMARY: read_summary,
    REQUEST: read_request,
}


# Writing

def put16(value):
    return value.to_bytes(2, "big")


def put32(value):
    return value.to_bytes(4, "big")


RESERVED = put16(0)


def write(content):
    kind, rest = WRITERS[type(content)](content)
    header = put16(kind) + put16(HEADER + len(rest)) + bytes([1, content.newest, content.oldest, 0])
    return header + rest


def write_group(kind, rest):
    """A group from all that follows its type and length."""
    return put16(LAYOUTS[kind].group_type) + put16(4 + len(rest)) + rest


def write_bundle(bundle):
    elements = [write_element(element) for element in bundle.elements]
    return BUNDLE, bundle.node + bundle.peer_group + b"".join(elements)


def write_element(element):
    fixed = put16(element.type) + RESERVED + put32(element.number) + element.instance
    return write_group(BUNDLE, fixed + element.body)


def write_acknowledgement(acknowledgement):
    return ACKNOWLEDGEMENT, b"".join(write_acknowledgement_group(group) for group in acknowledgement.groups)


def write_acknowledgement_group(group):
    entries = [put32(entry.number) + entry.instance for entry in group.entries]
    return write_group(ACKNOWLEDGEMENT, group.node + put16(len(entries)) + b"".join(entries))


def write_summary(summary):
    groups = [write_summary_group(group) for group in summary.groups]
    return SUMMARY, put16(summary.flags) + RESERVED + put32(summary.ds_number) + b"".join(groups)


def write_summary_group(group):
    entries = [write_description(entry) for entry in group.entries]
    return write_group(SUMMARY, group.node + group.peer_group + RESERVED + put16(len(entries)) + b"".join(entries))


def write_description(entry):
    return put16(entry.type) + RESERVED + put32(entry.number) + entry.instance


def write_request(request):
    return REQUEST, b"".join(write_request_group(group) for group in request.groups)


def write_request_group(group):
    entries = [put32(entry.number) for entry in group.entries]
    return write_group(REQUEST, group.node + put16(len(entries)) + b"".join(entries))


WRITERS = {
    Bundle: write_bundle,
    Acknowledgement: write_acknowledgement,
    Summary: write_summary,
    Request: write_request,
}


# One line of text for a packet

def line(data):
    found = read(data)
    if isinstance(found, Fault):
        return f"{found.number} {found.name} {found.place}"
    words = ["0", *TEXTS[type(found)](found), "written", write(found).hex()]
    return " ".join(str(word) for word in words)


def bundle_text(bundle):
    yield from ("bundle", bundle.newest, bundle.oldest, bundle.node.hex(), bundle.peer_group.hex())
    for element in bundle.elements:
        yield from ("element", element.type, element.number, element.instance.hex(), element.body.hex() or "-")


def acknowledgement_text(acknowledgement):
    yield from ("acknowledgement", acknowledgement.newest, acknowledgement.oldest)
    for group in acknowledgement.groups:
        yield from ("group", group.node.hex())
        for entry in group.entries:
            yield from ("entry", entry.number, entry.instance.hex())


def summary_text(summary):
    yield from ("summary", summary.newest, summary.oldest, summary.flags, summary.ds_number)
    for group in summary.groups:
        yield from ("group", group.node.hex(), group.peer_group.hex())
        for entry in group.entries:
            yield from ("entry", entry.type, entry.number, entry.instance.hex())


def request_text(request):
    yield from ("request", request.newest, request.oldest)
    for group in request.groups:
        yield from ("group", group.node.hex())
        for entry in group.entries:
            yield from ("entry", entry.number)


TEXTS = {
    Bundle: bundle_text,
    Acknowledgement: acknowledgement_text,
    Summary: summary_text,
    Request: request_text,
}


# Packets in hex, an empty one as "-"

def to_hex(data):
    return data.hex() or "-"


def from_hex(text):
    return b"" if text == "-" else bytes.fromhex(text)


if __name__ == "__main__":
    for text in sys.stdin:
        print(line(from_hex(text.strip())))
