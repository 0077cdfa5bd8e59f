"""Makes captures, request files and datagrams, good ones and broken ones, by a generator of random numbers."""

from make_requests import BULK, CREATE_REQUEST, GET, NEXT, NULL, OCTETS, RMON, SET, VALID
from make_requests import asking, datagram, element, integer, name, setting

TELLING_OCTETS = (0x00, 0x01, 0x02, 0x04, 0x05, 0x06, 0x30, 0x7F, 0x80, 0x81, 0x82, 0x84, 0xA0, 0xFE, 0xFF)
TELLING_NUMBERS = (0, 1, 59, 60, 1514, 262_143, 262_144, 262_145, 2**31 - 1, 2**31, 2**32 - 1)
TEXT_OCTETS = b"\n\r \t0179aAfFgG-+.\0\xff"


# Changes of octets.


def replaced(chosen, octets, telling):
    at = chosen.randrange(len(octets))
    octet = chosen.choice(telling) if chosen.random() < 0.7 else chosen.randrange(256)
    return octets[:at] + bytes([octet]) + octets[at + 1 :]


def flipped(chosen, octets, _):
    at = chosen.randrange(len(octets))
    return octets[:at] + bytes([octets[at] ^ 1 << chosen.randrange(8)]) + octets[at + 1 :]


def cut(chosen, octets, _):
    return octets[: chosen.randrange(len(octets))]


def a_slice(chosen, octets):
    begin = chosen.randrange(len(octets))
    return begin, begin + chosen.randint(1, min(16, len(octets) - begin))


def without(chosen, octets, _):
    begin, end = a_slice(chosen, octets)
    return octets[:begin] + octets[end:]


def with_repeated(chosen, octets, _):
    begin, end = a_slice(chosen, octets)
    return octets[:end] + octets[begin:end] * chosen.randint(1, 3) + octets[end:]


def with_inserted(chosen, octets, telling):
    at = chosen.randint(0, len(octets))
    return octets[:at] + bytes(chosen.choices(telling, k=chosen.randint(1, 4))) + octets[at:]


def with_number(chosen, octets, _):
    at = chosen.randrange(0, len(octets), 4)
    number = chosen.choice(TELLING_NUMBERS).to_bytes(4, chosen.choice(("little", "big")))
    return octets[:at] + number + octets[at + 4 :]


CHANGES = (replaced, replaced, replaced, flipped, cut, without, with_repeated, with_inserted, with_number)


def changed(chosen, octets, telling=TELLING_OCTETS):
    """The octets with one change, or with a few."""
    for _ in range(chosen.choice((1, 1, 1, 2, 3, 5))):
        octets = chosen.choice(CHANGES)(chosen, octets, telling) if octets else octets
    return octets


def random_octets(chosen, most):
    return chosen.randbytes(chosen.choice((chosen.randint(0, 40), chosen.randint(0, most))))


# Captures.

MAGIC = {0xA1B2C3D4: 1_000, 0xA1B23C4D: 1_000_000}
# The milliseconds at which captures begin.
BEGINS = 1_700_000_000_000
HOSTS = [bytes([2, 0, 0, 0, 0, host]) for host in range(6)] + [b"\xff" * 6, bytes.fromhex("01005e000001")]


def good_frame(chosen):
    """The octets of a frame: often one of IPv4, with options, as a fragment, or too short for what it says, and sometimes with a tag or two."""
    octets = chosen.choice(HOSTS) + chosen.choice(HOSTS)
    for _ in range(chosen.choice((0, 0, 0, 1, 1, 2))):
        octets += bytes.fromhex("8100") + chosen.randbytes(2)
    kind = chosen.choice(("ip", "ip", "ip", "0806", "86dd", "0100"))
    if kind != "ip":
        octets += bytes.fromhex(kind) + chosen.randbytes(chosen.randint(0, 60))
    else:
        words = chosen.choice((5, 5, 5, 6, 15, 4))
        fragment = chosen.choice((0, 0, 0, 0x2000, 1, 0x1FFF))
        header = bytes([0x40 | words, 0, 0, 46, 0, 0]) + fragment.to_bytes(2, "big")
        header += bytes([64, chosen.choice((1, 6, 17, 17, 50)), 0, 0, 10, 0, 0, chosen.randrange(9), 10, 0, 0, chosen.randrange(9)])
        ports = b"".join(chosen.choice((21, 53, 80, 161, 40000)).to_bytes(2, "big") for _ in range(2))
        octets += b"\x08\x00" + header.ljust(4 * words, b"\1") + ports + bytes(18)
    return octets[: chosen.randrange(len(octets))] if chosen.random() < 0.2 else octets


def good_capture(chosen, most=12, longest=0, begins=BEGINS):
    """A capture without a fault, of a form and an octet order, whose times mostly rise. Frames may be `longest` octets longer. The first one comes at
    `begins` milliseconds or a little later."""
    order = chosen.choice(("little", "big"))
    magic, units = chosen.choice(list(MAGIC.items()))

    def field(number, octets=4):
        return number.to_bytes(octets, order)

    capture = field(magic) + field(2, 2) + field(4, 2) + chosen.randbytes(12) + field(1)
    milliseconds = begins
    for _ in range(chosen.randint(0, most)):
        milliseconds += chosen.choice((0, 1, 20, 999, 1000, 1001, 60_000, -5))
        octets = good_frame(chosen) + bytes(chosen.randint(0, longest))
        length = chosen.choice((len(octets), len(octets), 1514, 1515, 1518, 1519, 262_144, chosen.randint(0, 2000)))
        seconds, left = divmod(milliseconds, 1000)
        capture += field(seconds) + field(left * units) + field(len(octets)) + field(length) + octets
    return capture


def broken_capture(chosen):
    how = chosen.random()
    if how < 0.05:
        return random_octets(chosen, 2000)
    if how < 0.15:
        return good_capture(chosen, 0) + random_octets(chosen, 2000)
    # One in a hundred is longer than what is read at once.
    capture = good_capture(chosen, longest=200_000) if how > 0.99 else good_capture(chosen)
    return capture if how < 0.3 else changed(chosen, capture)


def good_captures(chosen, most=12):
    """Captures of two to four interfaces whose times overlap, or that come one behind the other."""
    starts = (BEGINS, BEGINS, BEGINS - 500, BEGINS + 1, BEGINS + 60_000)
    return [good_capture(chosen, most, begins=chosen.choice(starts)) for _ in range(chosen.choice((2, 2, 3, 4)))]


def broken_captures(chosen):
    """Captures of two to four interfaces, of which some may be broken."""
    captures = good_captures(chosen)
    for place in chosen.sample(range(len(captures)), chosen.choice((0, 1, 1, 1, 2))):
        captures[place] = broken_capture(chosen)
    return captures


# Requests.

RESPONSE, TRAP = 0xA2, 0xA7
INTERFACES = (1, 3, 6, 1, 2, 1, 2, 2, 1, 1)
INTERFACE = INTERFACES + (1,)
PKTS = RMON + (1, 1, 1, 5, 1)

# The tables: the entry, the greatest column, and the column of the status of a control table.
TABLES = {
    "etherStats": (RMON + (1, 1, 1), 21, 21),
    "historyControl": (RMON + (2, 1, 1), 7, 7),
    "etherHistory": (RMON + (2, 2, 1), 15, None),
    "alarm": (RMON + (3, 1, 1), 12, 12),
    "hostControl": (RMON + (4, 1, 1), 6, 6),
    "host": (RMON + (4, 2, 1), 10, None),
    "hostTime": (RMON + (4, 3, 1), 10, None),
    "hostTopNControl": (RMON + (5, 1, 1), 10, 10),
    "hostTopN": (RMON + (5, 2, 1), 4, None),
    "matrixControl": (RMON + (6, 1, 1), 6, 6),
    "matrixSD": (RMON + (6, 2, 1), 6, None),
    "matrixDS": (RMON + (6, 3, 1), 6, None),
    "filter": (RMON + (7, 1, 1), 11, 11),
    "channel": (RMON + (7, 2, 1), 12, 12),
    "bufferControl": (RMON + (8, 1, 1), 13, 13),
    "captureBuffer": (RMON + (8, 2, 1), 7, None),
    "event": (RMON + (9, 1, 1), 7, 7),
    "log": (RMON + (9, 2, 1), 4, None),
    "protocolDir": (RMON + (11, 2, 1), 10, 10),
    "protocolDistControl": (RMON + (12, 1, 1), 6, 6),
    "protocolDistStats": (RMON + (12, 2, 1), 2, None),
    "hlHostControl": (RMON + (14, 1, 1), 12, 12),
    "nlHost": (RMON + (14, 2, 1), 8, None),
    "hlMatrixControl": (RMON + (15, 1, 1), 12, 12),
    "nlMatrixSD": (RMON + (15, 2, 1), 6, None),
    "nlMatrixDS": (RMON + (15, 3, 1), 6, None),
    "alHost": (RMON + (16, 1, 1), 6, None),
    "alMatrixSD": (RMON + (17, 1, 1), 4, None),
    "alMatrixDS": (RMON + (17, 2, 1), 4, None),
}
PORT_8080 = (16, 0, 0, 0, 1, 0, 0, 8, 0, 0, 0, 0, 6, 0, 0, 31, 144, 4, 0, 0, 0, 0)
CREATE_AND_GO = 4
LOG_AND_TRAP, ON = 4, 1


def text(octets):
    return element(OCTETS, octets)


def given(table, row, columns):
    """The bindings that give columns of a row their values, each the element of one."""
    return [(TABLES[table][0] + (column, row), value) for column, value in columns.items()]


def status_of(table, row, number):
    return given(table, row, {TABLES[table][2]: integer(number)})


def alarm_columns(interval):
    return {2: integer(interval), 3: name(PKTS), 4: integer(2), 7: integer(3), 8: integer(1), 9: integer(1), 10: integer(1)}


def set_up(interval):
    """The SetRequests that make a row of each control table valid, with an alarm that is sampled each `interval` seconds."""
    columns = {
        "event": {3: integer(LOG_AND_TRAP), 4: text(b"public")},
        "historyControl": {3: integer(20), 5: integer(min(interval, 3600))},
        "alarm": alarm_columns(interval),
        "hostControl": {},
        "hostTopNControl": {2: integer(1), 3: integer(4), 4: integer(interval)},
        "matrixControl": {},
        "filter": {2: integer(1), 4: text(b"\x08\x00"), 3: integer(12)},
        "channel": {4: integer(ON), 7: integer(1), 8: integer(3)},
        "bufferControl": {2: integer(1), 4: integer(2), 8: integer(1000)},
        "etherStats": {},
    }
    rows = {table: 2 if table == "etherStats" else 1 for table in columns}
    made = [setting(status_of(it, rows[it], CREATE_REQUEST) + given(it, rows[it], columns[it])) for it in columns]
    made += [setting(status_of(it, rows[it], VALID)) for it in columns]
    directory = [(TABLES["protocolDir"][0] + (10,) + PORT_8080, integer(CREATE_AND_GO))]
    layered = [setting(status_of(it, 1, CREATE_AND_GO)) for it in ("protocolDistControl", "hlHostControl", "hlMatrixControl")]
    return made + layered + [setting(directory)]


def walks():
    """GetBulkRequests for the first variables of each table."""
    return [datagram(BULK, asking([entry]), second=60) for entry, _, _ in TABLES.values()]


ROW_NUMBERS = (1, 1, 1, 2, 2, 3, 16, 17, 0, 65_535, 65_536, 2**31, 2**32 - 1)


def address(chosen):
    """An IPv4 address of good_frame, behind its number of octets."""
    return 4, 10, 0, 0, chosen.randrange(9)


def layer_index(chosen, addresses):
    """The index of a host or a pair of good_frame, which has so many addresses, or of a protocol of it, or the front of one."""
    index = (1, chosen.choice((0, 1, 100, 101, 200, 2**32 - 1)), 2)
    for _ in range(addresses):
        index += address(chosen)
    whole = len(index)
    index += (chosen.choice((5, 6, 10, 15)),)
    return index[: chosen.choice((whole, whole, whole + 1, whole + 1, chosen.randint(0, whole + 1)))]


# How many addresses the index of a table has.
ADDRESSES = {"nlHost": 1, "nlMatrixSD": 2, "nlMatrixDS": 2, "alHost": 1, "alMatrixSD": 2, "alMatrixDS": 2}


def random_name(chosen):
    if chosen.random() < 0.1:
        return chosen.choice(((1, 3), (0, 0), (2, 2**32 - 81), RMON, INTERFACE, (1, 3, 6, 1, 2, 1, 1, 1, 0), (1, 3, 6, 1, 2, 1, 1, 3, 0)))
    table = chosen.choice(list(TABLES))
    entry, columns, _ = TABLES[table]
    numbers = entry + (chosen.randint(0, columns + 1),)
    if table == "protocolDir" and chosen.random() < 0.7:
        return numbers + PORT_8080
    if table in ADDRESSES and chosen.random() < 0.7:
        return numbers + layer_index(chosen, ADDRESSES[table])
    return numbers + tuple(chosen.choice(ROW_NUMBERS) for _ in range(chosen.choice((1, 1, 1, 1, 0, 2, 3, 8))))


def random_value(chosen):
    return chosen.choice(
        (
            lambda: integer(chosen.choice((1, 1, 2, 3, 4, 5, 6, 0, -1, 10, 2**31 - 1, -(2**31)))),
            lambda: integer(chosen.randint(1, 4)),
            lambda: text(chosen.randbytes(chosen.choice((0, 1, 6, 64, 127, 128)))),
            lambda: name(random_name(chosen)),
            lambda: name(INTERFACES + (chosen.choice((1, 1, 1, 2, 3, 4, 0, 5)),)),
            lambda: element(NULL, b""),
            lambda: element(chosen.choice((0x40, 0x41, 0x42, 0x43, 0x44, 0x46)), chosen.randbytes(4)),
            lambda: element(chosen.choice((0x80, 0x81, 0x82)), b""),
        )
    )()


def a_row(chosen):
    """Bindings that belong together: some columns of one row of a control table, with its status."""
    entry, columns, status = TABLES[chosen.choice([table for table, it in TABLES.items() if it[2]])]
    index = PORT_8080 if entry == TABLES["protocolDir"][0] else (chosen.choice((1, 2, 3)),)
    listed = [(entry + (column,) + index, random_value(chosen)) for column in range(2, columns) if chosen.random() < 0.15]
    return listed + [(entry + (status,) + index, integer(chosen.randint(1, 6)))]


def good_datagram(chosen):
    """A message that is well formed, mostly a request of a known community."""
    kind = chosen.choice((GET, NEXT, BULK, SET, SET) * 3 + (RESPONSE, TRAP))
    count = chosen.choice((1, 1, 1, 2, 3, 5, 20, 0, 128, 129))
    if kind == SET:
        bindings = a_row(chosen) if chosen.random() < 0.7 else [(random_name(chosen), random_value(chosen)) for _ in range(count)]
    else:
        bindings = asking([random_name(chosen) for _ in range(count)])
    numbers = chosen.choice(((0, 0), (0, 20), (1, 5), (-1, 2**31 - 1), (2**31 - 1, 3), (5, -(2**31))))
    community = chosen.choice((b"public", b"private", b"private", b"", b"unknown"))
    return datagram(kind, bindings, *numbers, community=community, request_id=chosen.choice((1, 127, 128, -1, 2**31 - 1, -(2**31))))


def broken_datagram(chosen):
    how = chosen.random()
    if how < 0.02:
        return random_octets(chosen, 9000)
    octets = good_datagram(chosen)
    return octets if how < 0.3 else changed(chosen, octets)


def request_line(moment, octets, end=b"\n"):
    return b"%d %s%s" % (moment, octets.hex().encode(), end)


def request_file(requests):
    return b"".join(request_line(moment, octets) for moment, octets in requests)


def broken_requests(chosen):
    """A request file of a few lines, mostly with something wrong in it."""
    if chosen.random() < 0.05:
        return random_octets(chosen, 2000)
    moment, lines = 0, []
    for _ in range(chosen.choice((1, 2, 3, 6, 12))):
        moment += chosen.choice((0, 0, 1, 999, 10_000, -1))
        octets = chosen.choice((good_datagram, broken_datagram))(chosen) if chosen.random() < 0.3 else b""
        # One line in a hundred is about as long as a line may be.
        octets = bytes(chosen.randint(65_530, 65_536)) if chosen.random() < 0.01 else octets
        lines.append(request_line(max(moment, 0), octets, chosen.choice((b"\n", b"\n", b"\r\n"))))
    octets = b"".join(lines)
    return octets if chosen.random() < 0.2 else changed(chosen, octets, TEXT_OCTETS)
