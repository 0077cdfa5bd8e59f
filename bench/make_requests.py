"""Writes a request file to standard output: the SetRequests that make all rows, and then so many datagrams of one kind.

    make_requests.py KIND COUNT
"""

import sys

MOMENT = 2000
RMON = (1, 3, 6, 1, 2, 1, 16)
ROWS = range(1, 17)

# The entries of the control tables, each with the columns of its owner and of its status.
ETHER_STATS = RMON + (1, 1, 1)
HISTORY_CONTROL = RMON + (2, 1, 1)
ALARM = RMON + (3, 1, 1)
EVENT = RMON + (9, 1, 1)
CONTROL_TABLES = ((ETHER_STATS, 20, 21), (HISTORY_CONTROL, 6, 7), (ALARM, 11, 12), (EVENT, 6, 7))

ETHER_STATS_PKTS = ETHER_STATS + (5, 1)
CREATE_REQUEST, VALID = 2, 1

GET, NEXT, SET, BULK = 0xA0, 0xA1, 0xA3, 0xA5
INTEGER, OCTETS, NULL, NAME, SEQUENCE = 0x02, 0x04, 0x05, 0x06, 0x30


def element(tag, content):
    """An element with its length in the fewest octets."""
    count = len(content)
    if count < 0x80:
        length = bytes([count])
    else:
        octets = count.to_bytes((count.bit_length() + 7) // 8, "big")
        length = bytes([0x80 | len(octets)]) + octets
    return bytes([tag]) + length + content


def integer(number):
    return element(INTEGER, number.to_bytes(number.bit_length() // 8 + 1, "big", signed=True))


def name(numbers):
    content = b""
    for number in (40 * numbers[0] + numbers[1],) + tuple(numbers[2:]):
        septets = [number & 0x7F]
        while number := number >> 7:
            septets.insert(0, 0x80 | number & 0x7F)
        content += bytes(septets)
    return element(NAME, content)


def datagram(kind, bindings, first=0, second=0, community=b"public", request_id=1):
    """A request with these bindings, each a name and the element of its value."""
    listed = b"".join(element(SEQUENCE, name(numbers) + value) for numbers, value in bindings)
    pdu = integer(request_id) + integer(first) + integer(second) + element(SEQUENCE, listed)
    return element(SEQUENCE, integer(1) + element(OCTETS, community) + element(kind, pdu))


def asking(names):
    return [(numbers, element(NULL, b"")) for numbers in names]


def setting(bindings):
    return datagram(SET, bindings, community=b"private")


def owners(count):
    """So many owners of rows, each given the empty string."""
    names = [entry + (owner, row) for entry, owner, _ in CONTROL_TABLES for row in ROWS]
    return [(numbers, element(OCTETS, b"")) for numbers in names[:count]]


def set_status(table, row, value):
    entry, _, status = table
    return setting([(entry + (status, row), integer(value))])


def set_up():
    """The SetRequests that make all rows. Those of etherStats and historyControl become valid."""
    for table in CONTROL_TABLES:
        for row in ROWS:
            yield set_status(table, row, CREATE_REQUEST)
    for table in CONTROL_TABLES[:2]:
        for row in ROWS:
            yield set_status(table, row, VALID)


REPEATED = [ETHER_STATS + (column,) for column in (4, 5, 6, 7)]
KINDS = {
    "dropped": datagram(GET, asking([ETHER_STATS_PKTS]), community=b"unknown"),
    "get": datagram(GET, asking([ETHER_STATS_PKTS])),
    "get-20": datagram(GET, asking([ETHER_STATS + (5, row) for row in ROWS] + [ETHER_STATS + (4, row) for row in ROWS][:4])),
    "next": datagram(NEXT, asking([ETHER_STATS_PKTS])),
    "bulk-1-by-20": datagram(BULK, asking([ETHER_STATS]), second=20),
    "bulk-4-by-5": datagram(BULK, asking(REPEATED), second=5),
    "set-1": setting(owners(1)),
    "set-32": setting(owners(32)),
    "set-64": setting(owners(64)),
}


def main():
    kind, count = sys.argv[1:]
    lines = [f"{MOMENT} {octets.hex()}\n" for octets in set_up()]
    lines += [f"{MOMENT} {KINDS[kind].hex()}\n"] * int(count)
    sys.stdout.writelines(lines)


if __name__ == "__main__":
    main()
