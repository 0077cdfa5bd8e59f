"""Writes to standard output what the command `load` is to write.

    make_figures.py START FRAMES [HOSTS PAIRS UPPER]

HOSTS, PAIRS and UPPER are the values of the options, 1024 each where they aren't given. The frames are those of make_load.py. Of each table only
the keys that are held are kept, in the order in which they were referred to last, and how often one came and one went.
"""

import sys

HOSTS = 64
SHORTEST, LENGTHS = 60, 1455
CHECK_SEQUENCE = 4
UDP, DOMAIN, SNMP = 17, 53, 161


def numbers(start, count):
    """So many numbers of 15 bits, the high ones of a linear congruential generator."""
    state = start
    for _ in range(count):
        state = (1103515245 * state + 12345) % 2147483648
        yield state // 65536


class Table:
    """The keys that are held, the one that was referred to least recently first."""

    def __init__(self, room):
        self.room = room
        self.keys = {}
        self.inserts = self.deletes = self.last_delete = 0

    def refer(self, key, tick):
        """Refers to a key. The result is the key that gives way, if one does."""
        if key in self.keys:
            del self.keys[key]
            self.keys[key] = True
            return None
        gone = None
        if len(self.keys) == self.room:
            gone = next(iter(self.keys))
            del self.keys[gone]
            self.deletes += 1
            self.last_delete = tick
        self.keys[key] = True
        self.inserts += 1
        return gone


class LayerTable:
    """A table of the network layer, with the protocols of each key."""

    def __init__(self, room):
        self.network = Table(room)
        self.protocols = {}
        self.inserts = self.deletes = 0

    def refer(self, key, tick, protocols):
        gone = self.network.refer(key, tick)
        if gone is not None:
            self.deletes += len(self.protocols.pop(gone))
        held = self.protocols.setdefault(key, set())
        self.inserts += len(protocols - held)
        held |= protocols


def figures(start, count, hosts, pairs, upper):
    """The words of the lines with their numbers."""
    octets = 0
    host, matrix = Table(hosts), Table(pairs)
    layer_host, layer_matrix = LayerTable(upper), LayerTable(upper)
    for i, drawn in enumerate(numbers(start, count), 1):
        tick = (1000 + i) // 10
        source, dest = drawn % HOSTS, drawn // HOSTS % HOSTS
        protocols = {UDP, DOMAIN if drawn % 2 == 0 else SNMP}
        octets += SHORTEST + drawn % LENGTHS + CHECK_SEQUENCE
        for key in (source, dest):
            host.refer(key, tick)
            layer_host.refer(key, tick, protocols)
        matrix.refer((source, dest), tick)
        layer_matrix.refer((source, dest), tick, protocols)
    yield "etherStatsPkts", count
    yield "etherStatsOctets", octets % 2**32
    for word, table in (("host", host), ("matrix", matrix)):
        yield word + "ControlTableSize", len(table.keys)
        yield word + "ControlLastDeleteTime", table.last_delete
    for word, table in (("host", layer_host), ("matrix", layer_matrix)):
        yield word + "NlInserts", table.network.inserts
        yield word + "NlDeletes", table.network.deletes
        yield word + "AlInserts", table.inserts
        yield word + "AlDeletes", table.deletes
    yield "end", count


def main():
    start, count, *rooms = (int(word) for word in sys.argv[1:])
    for word, number in figures(start, count, *(rooms or (1024, 1024, 1024))):
        print(word, number)


if __name__ == "__main__":
    main()
