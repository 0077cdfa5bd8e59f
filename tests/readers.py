"""Readers of captures, request files and messages, written from their rules alone.

They share nothing with the program, so that what it answers can be compared with what they say.
"""

import re
from dataclasses import dataclass

# Captures.

MOST_OCTETS = 262_144
LAST_MOMENT = 2**32 - 1
NANOSECONDS = 10**9

# The octet order of each magic number, and how many nanoseconds a fraction of a second counts.
MAGIC = {
    bytes.fromhex("d4c3b2a1"): ("little", 1000),
    bytes.fromhex("a1b2c3d4"): ("big", 1000),
    bytes.fromhex("4d3cb2a1"): ("little", 1),
    bytes.fromhex("a1b23c4d"): ("big", 1),
}


@dataclass
class Frame:
    moment: int
    octets: bytes
    length: int


@dataclass
class Capture:
    """The frames of a capture. `fault` is the offset of its first fault, or None; `cut` says that it ends within a record."""

    frames: list
    fault: int | None = None
    cut: bool = False


def header_fault(octets):
    """The offset of the first fault of a file header, or None."""
    if octets[:4] not in MAGIC:
        return 0
    order = MAGIC[octets[:4]][0]
    if len(octets) < 8 or [int.from_bytes(octets[at : at + 2], order) for at in (4, 6)] != [2, 4]:
        return 4
    if len(octets) < 24 or int.from_bytes(octets[20:24], order) != 1:
        return 20
    return None


def record_at(octets, at):
    """The record at a place, by its time in nanoseconds and its two lengths, or None where its own 16 octets aren't all there."""
    if len(octets) - at < 16:
        return None
    order, unit = MAGIC[octets[:4]]
    seconds, fraction, included, original = (int.from_bytes(octets[at + n : at + n + 4], order) for n in (0, 4, 8, 12))
    return seconds * NANOSECONDS + fraction * unit, included, original


def length_fault(at, included, original):
    """The offset of the first length that is too great of the record at a place, or None."""
    if included > MOST_OCTETS:
        return at + 8
    return at + 12 if original > MOST_OCTETS else None


def first_round(octets):
    """What is found of a capture before its clock is known: the offset of the first fault of its header and of the lengths of its first record, or
    None; and the time of that record where it is whole."""
    fault = header_fault(octets)
    first = record_at(octets, 24) if fault is None else None
    if first is None:
        return fault, None
    time, included, original = first
    fault = length_fault(24, included, original)
    return fault, time if fault is None and len(octets) - 40 >= included else None


def read_capture(octets, lead, began=None):
    """The capture that these octets are. The time `began` stands at the moment `lead`: that of its first record where none is given."""
    fault = header_fault(octets)
    if fault is not None:
        return Capture([], fault)
    capture = Capture([])
    at, moment = 24, lead
    while at < len(octets):
        record = record_at(octets, at)
        if record is None:
            capture.cut = True
            return capture
        time, included, original = record
        capture.fault = length_fault(at, included, original)
        if capture.fault is not None:
            return capture
        began = time if began is None else began
        moment = max(moment, lead + (time - began) // 1_000_000)
        is_whole = len(octets) - at - 16 >= included
        # A first record that is cut short is never late.
        if moment > LAST_MOMENT and (is_whole or capture.frames):
            capture.fault = at
            return capture
        if not is_whole:
            capture.cut = True
            return capture
        capture.frames.append(Frame(moment, octets[at + 16 : at + 16 + included], max(included, original)))
        at += 16 + included
    return capture


def first_fault(faults):
    """The interface, from 1, and the offset of the first fault of these, or None."""
    return next(((interface, fault) for interface, fault in enumerate(faults, 1) if fault is not None), None)


def read_captures(files, lead):
    """The captures of interfaces 1, 2 and so on, of whose first records the earliest whole one stands at the moment `lead`, and the interface and
    the offset of their first fault, or None. They are judged in two rounds."""
    found = [first_round(octets) for octets in files]
    fault = first_fault(fault for fault, _ in found)
    if fault:
        return [], fault
    times = [time for _, time in found if time is not None]
    captures = [read_capture(octets, lead, min(times, default=None)) for octets in files]
    return captures, first_fault(capture.fault for capture in captures)


def is_tagged(octets):
    """Whether a frame has a tag (IEEE 802.1Q)."""
    return len(octets) >= 14 and octets[12:14] == b"\x81\x00"


def has_ipv4(octets):
    """Whether a frame has type 0800, maybe behind a tag, and a whole header of IPv4."""
    begins = 18 if is_tagged(octets) else 14
    if len(octets) < begins + 20 or octets[begins - 2 : begins] != b"\x08\x00":
        return False
    version, words = divmod(octets[begins], 16)
    return version == 4 and words >= 5 and len(octets) >= begins + 4 * words


def summary_of(capture, lead):
    """The lines that sum a capture up."""
    lengths = [max(frame.length, 60) + 4 for frame in capture.frames]
    good = [frame for frame, length in zip(capture.frames, lengths) if length <= (1522 if is_tagged(frame.octets) else 1518)]
    broadcast = sum(frame.octets[:6] == b"\xff" * 6 and len(frame.octets) >= 12 for frame in good)
    grouped = sum(len(frame.octets) >= 12 and frame.octets[0] & 1 for frame in good)
    counts = {
        "frames": len(capture.frames),
        "octets": sum(lengths),
        "good": len(good),
        "undersize": 0,
        "oversize": len(capture.frames) - len(good),
        "broadcast": broadcast,
        "multicast": grouped - broadcast,
        "ip": sum(has_ipv4(frame.octets) for frame in capture.frames),
        "first": capture.frames[0].moment if capture.frames else 0,
        "last": capture.frames[-1].moment if capture.frames else 0,
        "cut" if capture.cut else "end": len(capture.frames),
    }
    return "".join(f"{word} {number}\n" for word, number in counts.items()).encode()


# Request files.

REQUEST = re.compile(rb"([0-9]{1,10}) ((?:[0-9a-fA-F]{2}){0,65535})")


def read_requests(octets):
    """The moments and datagrams of a request file, and the number of its first line that isn't of the form, or None."""
    *ended, last = octets.split(b"\n")
    lines = [line.removesuffix(b"\r") for line in ended] + ([last] if last else [])
    requests, now = [], 0
    for number, line in enumerate(lines, 1):
        form = REQUEST.fullmatch(line)
        if not form or not now <= int(form[1]) <= LAST_MOMENT:
            return requests, number
        now = int(form[1])
        requests.append((now, bytes.fromhex(form[2].decode())))
    return requests, None


# Messages (RFC 1901, 1905 and 1906).

INTEGER, OCTETS, NULL, NAME, SEQUENCE = 0x02, 0x04, 0x05, 0x06, 0x30
ADDRESS, COUNTER, GAUGE, TICKS, OPAQUE, BIG = 0x40, 0x41, 0x42, 0x43, 0x44, 0x46
NO_OBJECT, NO_INSTANCE, END_OF_VIEW = 0x80, 0x81, 0x82
GET, NEXT, RESPONSE, SET, BULK, INFORM, TRAP, REPORT = 0xA0, 0xA1, 0xA2, 0xA3, 0xA5, 0xA6, 0xA7, 0xA8
REQUESTS = (GET, NEXT, SET, BULK)
OTHERS = (RESPONSE, INFORM, TRAP, REPORT)

# For each kind of number the most octets of its content, the least and the greatest.
NUMBERS = {
    INTEGER: (8, -(2**31), 2**31 - 1),
    COUNTER: (8, 0, 2**32 - 1),
    GAUGE: (8, 0, 2**32 - 1),
    TICKS: (8, 0, 2**32 - 1),
    BIG: (9, 0, 2**64 - 1),
}
EMPTY = (NULL, NO_OBJECT, NO_INSTANCE, END_OF_VIEW)
VALUES = (*NUMBERS, *EMPTY, OCTETS, NAME, ADDRESS, OPAQUE)


class Dropped(Exception):
    """Why there is no reply, in the words of the line."""


@dataclass
class Message:
    community: bytes
    kind: int
    id: int
    first: int
    second: int
    bindings: list


def malformed(at):
    return Dropped(f"malformed {at}")


def length_at(octets, at, end, shortest):
    """The length that stands at a place before `end`, and the place behind it; None where none stands there."""
    if at >= end:
        return None
    count = octets[at] & 0x7F if octets[at] & 0x80 else 0
    if octets[at] < 0x80:
        return octets[at], at + 1
    if not 1 <= count <= 4 or end - at - 1 < count:
        return None
    length = int.from_bytes(octets[at + 1 : at + 1 + count], "big")
    if shortest and (length < 0x80 or length < 1 << 8 * (count - 1)):
        return None
    return length, at + 1 + count


def name_of(content):
    """The numbers that the content of an identifier spells, or None."""
    groups, group, begins = [], 0, True
    for octet in content:
        if begins and octet == 0x80:
            return None
        group, begins = group << 7 | octet & 0x7F, octet < 0x80
        if group >= 2**32:
            return None
        if begins:
            groups.append(group)
            group = 0
    if not groups or not begins or len(groups) > 127:
        return None
    front = min(groups[0] // 40, 2)
    return (front, groups[0] - 40 * front, *groups[1:])


def number_of(tag, content, shortest):
    most, least, greatest = NUMBERS[tag]
    if not 1 <= len(content) <= most:
        return None
    number = int.from_bytes(content, "big", signed=True)
    if shortest and len(content) > max(1, ((number if number >= 0 else ~number).bit_length() // 8) + 1):
        return None
    return number if least <= number <= greatest else None


def content_of(tag, content, shortest):
    """What the content of an element spells, or None where it isn't accepted."""
    if tag in NUMBERS:
        return number_of(tag, content, shortest)
    if tag == NAME:
        return name_of(content)
    if tag in EMPTY:
        return None if content else ()
    if tag == ADDRESS:
        return content if len(content) == 4 else None
    return content


def element_at(octets, at, end, tags, shortest=False):
    """The tag of the element at a place and the places of its content."""
    if at >= end or octets[at] not in tags:
        raise malformed(at)
    length = length_at(octets, at + 1, end, shortest)
    if length is None or length[1] + length[0] > end:
        raise malformed(at)
    return octets[at], length[1], length[1] + length[0]


def value_at(octets, at, end, tags, shortest=False):
    """The tag of the element at a place, what it spells, and the place behind it."""
    tag, begins, behind = element_at(octets, at, end, tags, shortest)
    value = content_of(tag, octets[begins:behind], shortest)
    if value is None:
        raise malformed(at)
    return tag, value, behind


def bindings_at(octets, at, end, shortest):
    bindings = []
    while at < end:
        _, inner, behind = element_at(octets, at, end, (SEQUENCE,), shortest)
        _, numbers, place = value_at(octets, inner, behind, (NAME,), shortest)
        tag, value, place = value_at(octets, place, behind, VALUES, shortest)
        if place != behind:
            raise malformed(place)
        bindings.append((numbers, tag, value))
        at = behind
    return bindings


def read_message(octets, kinds=REQUESTS, shortest=False):
    """The message that these octets are, with a PDU of these kinds; or it raises why there is none.

    With `shortest` only the canonical octets are taken: the shortest lengths, and the fewest octets for each integer.
    """
    if len(octets) > 8192:
        raise Dropped("too-long")
    _, at, message_end = element_at(octets, 0, len(octets), (SEQUENCE,), shortest)
    _, version, at = value_at(octets, at, message_end, (INTEGER,), shortest)
    if version != 1:
        raise Dropped("version")
    _, community, at = value_at(octets, at, message_end, (OCTETS,), shortest)
    if at < message_end and octets[at] in OTHERS and octets[at] not in kinds:
        raise Dropped("not-request")
    kind, at, pdu_end = element_at(octets, at, message_end, kinds, shortest)
    integers = []
    for _ in range(3):
        _, number, at = value_at(octets, at, pdu_end, (INTEGER,), shortest)
        integers.append(number)
    _, at, list_end = element_at(octets, at, pdu_end, (SEQUENCE,), shortest)
    bindings = bindings_at(octets, at, list_end, shortest)
    for end, outer in ((list_end, pdu_end), (pdu_end, message_end), (message_end, len(octets))):
        if end < outer:
            raise malformed(end)
    return Message(community, kind, *integers, bindings)


# What `decode` writes.

KIND_WORDS = {
    GET: "get",
    NEXT: "next",
    RESPONSE: "response",
    SET: "set",
    BULK: "bulk",
    INFORM: "inform",
    TRAP: "trap",
    REPORT: "report",
}
VALUE_WORDS = {
    INTEGER: "integer",
    COUNTER: "counter",
    GAUGE: "gauge",
    TICKS: "ticks",
    BIG: "counter64",
    OCTETS: "octets",
    OPAQUE: "opaque",
    NAME: "oid",
    ADDRESS: "ip",
    NULL: "null",
    NO_OBJECT: "no-object",
    NO_INSTANCE: "no-instance",
    END_OF_VIEW: "end-of-view",
}
SHOWN_BINDINGS = 128


def dotted(numbers):
    return ".".join(map(str, numbers))


def value_text(tag, value):
    if tag in EMPTY:
        return VALUE_WORDS[tag]
    if tag in (NAME, ADDRESS):
        return f"{VALUE_WORDS[tag]} {dotted(value)}"
    return f"{VALUE_WORDS[tag]} {value if tag in NUMBERS else value.hex() or '-'}"


def decoded(octets):
    """The text of these octets, read as a message with any kind of PDU."""
    try:
        message = read_message(octets, REQUESTS + OTHERS)
    except Dropped as why:
        return f"drop {why}\n".encode()
    community = message.community.hex() or "-"
    first = f"{KIND_WORDS[message.kind]} {message.id} {message.first} {message.second} {len(message.bindings)} {community}\n"
    shown = message.bindings[:SHOWN_BINDINGS]
    return (first + "".join(f"{dotted(numbers)} {value_text(tag, value)}\n" for numbers, tag, value in shown)).encode()
