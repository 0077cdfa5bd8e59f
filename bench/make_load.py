"""Writes a capture to standard output: so many frames of a generator, a millisecond apart.

    make_load.py START FRAMES [CAPTURED]

START is the number that the generator begins with, so that the frames are the same each time. A frame has 60 to 1514 octets and a datagram
of IPv4 and UDP between two of 64 hosts, to the port of domain or of snmp, and zeros behind the header of UDP. Of each frame 60 octets are
captured, or so many as CAPTURED says where the frame has them.
"""

import struct
import sys

from make_capture import FILE_HEADER, FIRST_SECOND, HOSTS

SHORTEST, LENGTHS = 60, 1455
DOMAIN, SNMP = 53, 161


def numbers(start, count):
    """So many numbers of 15 bits, the high ones of a linear congruential generator."""
    state = start
    for _ in range(count):
        state = (1103515245 * state + 12345) % 2147483648
        yield state // 65536


def headers(source, dest, port):
    """The headers of Ethernet, of IPv4 and of UDP in a frame from one host to another."""
    ethernet = bytes([2, 0, 0, 0, 0, dest, 2, 0, 0, 0, 0, source, 8, 0])
    ip = bytes.fromhex("4500002e0000000040110000") + bytes([10, 0, 0, source, 10, 0, 0, dest])
    return ethernet + ip + struct.pack(">HHHH", 40000, port, 26, 0)


def main():
    start, frames = map(int, sys.argv[1:3])
    captured = int(sys.argv[3]) if sys.argv[3:] else SHORTEST
    out = sys.stdout.buffer
    out.write(FILE_HEADER)
    for number, drawn in enumerate(numbers(start, frames)):
        length = SHORTEST + drawn % LENGTHS
        port = SNMP if drawn % 2 else DOMAIN
        octets = headers(drawn % HOSTS, drawn // HOSTS % HOSTS, port).ljust(min(length, captured), b"\0")
        seconds, milliseconds = divmod(number, 1000)
        out.write(struct.pack("<IIII", FIRST_SECOND + seconds, milliseconds * 1000, len(octets), length))
        out.write(octets)


main()
