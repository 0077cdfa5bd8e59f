"""Writes a capture to standard output: so many records, so many milliseconds apart.

    make_capture.py RECORDS APART [mixed | datagrams] [HAND/HANDS]

Each is one frame of 60 octets. With `mixed` the frames have 60 to 1514 octets and go to and fro among 64 hosts, the same ones
each time. With `datagrams` each is a datagram of UDP over IPv4 to the port of DNS, among 2048 addresses, the same ones each time.
With `2/4` the records are dealt to four captures in turn, and the second one is written.
"""

import random
import struct
import sys

FIRST_SECOND = 1_700_000_000
LEAST, GREATEST = 60, 1514
HOSTS = 64

# Magic number for microseconds, version 2.4, zone, accuracy, greatest length, Ethernet.
FILE_HEADER = struct.pack("<IHHiIII", 0xA1B2C3D4, 2, 4, 0, 0, 262_144, 1)

# The EtherType for local experiments.
TYPE = bytes.fromhex("88b5")

# That of IPv4, and the addresses 10.0.0.1 and so on.
IPV4 = bytes.fromhex("0800")
NETWORK = 10 << 24
ADDRESSES = 2048


def frame(dest, source, octets, kind=TYPE, payload=b""):
    """A frame from one host to another, with an empty payload if none is given."""
    addresses = b"".join(bytes.fromhex("02") + host.to_bytes(5, "big") for host in (dest, source))
    return (addresses + kind + payload).ljust(octets, b"\0")


def mixed_frames():
    """Frames of all lengths among the hosts, the same ones each time."""
    chosen = random.Random(1)
    while True:
        dest, source = chosen.sample(range(1, HOSTS + 1), 2)
        yield frame(dest, source, chosen.randint(LEAST, GREATEST))


def datagrams():
    """Datagrams of UDP among many addresses, the same ones each time."""
    chosen = random.Random(1)
    while True:
        dest, source = chosen.sample(range(1, ADDRESSES + 1), 2)
        header = struct.pack(">BBHHHBBHII", 0x45, 0, 46, 0, 0, 64, 17, 0, NETWORK + source, NETWORK + dest)
        yield frame(dest, source, LEAST, IPV4, header + struct.pack(">HHHH", 40000, 53, 26, 0))


def small_frames():
    """The same frame again and again."""
    while True:
        yield frame(1, 10, LEAST)


def packed_record(milliseconds, octets):
    """The record of a frame that is captured whole, so many milliseconds after the first moment."""
    seconds, left = divmod(milliseconds, 1000)
    return struct.pack("<IIII", FIRST_SECOND + seconds, left * 1000, len(octets), len(octets)) + octets


def main():
    records, apart = map(int, sys.argv[1:3])
    dealt = [word for word in sys.argv[3:] if "/" in word] or ["1/1"]
    hand, hands = map(int, dealt[0].split("/"))
    kind = "".join(word for word in sys.argv[3:] if "/" not in word)
    frames = {"mixed": mixed_frames, "datagrams": datagrams}.get(kind, small_frames)()
    out = sys.stdout.buffer
    out.write(FILE_HEADER)
    for number in range(records):
        record = packed_record(number * apart, next(frames))
        if number % hands == hand - 1:
            out.write(record)


if __name__ == "__main__":
    main()
