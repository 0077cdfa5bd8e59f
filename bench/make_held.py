"""Writes to standard output what the program of crates/million_references is to write.

    make_held.py

It is worked out from what it means that a key is held, over a plain list of all references: no list by recency, no index, and no
table of rows that changes.
"""

FRAMES = 500_000
START = 7
HOSTS = 64


def frames():
    """For each frame its source and its destination, by their numbers, and its moment in hundredths of a second."""
    x = START
    for i in range(1, FRAMES + 1):
        x = (1103515245 * x + 12345) % 2147483648
        y = x // 65536
        yield y % HOSTS, y // HOSTS % HOSTS, (1000 + i) // 10


# The keys: an address for each host, and two for each pair.
ADDRESSES = [bytes([2, 0, 0, 0, 0, host]) for host in range(HOSTS)]
PAIRS = [[source + destination for destination in ADDRESSES] for source in ADDRESSES]


def are_far(keys, earlier, later, capacity):
    """Whether between two places there are at least as many distinct keys as there is room for."""
    return later - earlier > capacity and len(set(keys[earlier + 1 : later])) >= capacity


def held(references, capacity):
    """The number of evictions, the tick of the last one, and the rows in order of entry: key, entry, last tick, count.

    A reference is given by its key and its tick, and its place is its stamp. It brings its key in where the key never came, or came
    so long ago that the table has meanwhile been referred to by as many other keys as it has room for. It puts another key out where
    it brings one in after as many distinct keys have come as there is room for. A key is held at the end if it was not put out since
    its last reference. Its entry is the last reference that brought it in.
    """
    keys = [key for key, _ in references]
    last, entry, count = {}, {}, {}
    evictions, last_delete = 0, 0
    for place, (key, tick) in enumerate(references):
        if key not in last or are_far(keys, last[key], place, capacity):
            if len(last) >= capacity:
                evictions, last_delete = evictions + 1, tick
            entry[key], count[key] = place, 0
        last[key] = place
        count[key] += 1
    rows = [
        (key, entry[key], references[place][1], count[key])
        for key, place in last.items()
        if not are_far(keys, place, len(keys), capacity)
    ]
    return evictions, last_delete, sorted(rows, key=lambda row: row[1])


def checksum(numbers):
    """A checksum of numbers, in their order."""
    value = 0
    for number in numbers:
        value = (1000003 * value + number) % 2147483647
    return value


def report(name, references, capacity, ends):
    """The rows, so many at either end, and checksums of all."""
    evictions, last_delete, rows = held(references, capacity)
    assert len(rows) == min(capacity, len({key for key, _ in references}))
    print(f"{name}: {capacity} held, {evictions} evictions, the last at tick {last_delete}")
    numbers = []
    for rank, (key, entry, tick, count) in enumerate(rows, 1):
        if rank <= ends or rank > len(rows) - ends:
            print(rank, key.hex(), entry, tick, count)
        numbers += [rank, *key, entry, tick, count]
    print("checksum of the rows", checksum(numbers))
    in_order = sorted(key for key, _, _, _ in rows)
    print("checksum of the keys in their order", checksum(octet for key in in_order for octet in key))


def main():
    hosts, pairs = [], []
    for source, destination, tick in frames():
        hosts += [(ADDRESSES[source], tick), (ADDRESSES[destination], tick)]
        pairs.append((PAIRS[source][destination], tick))
    report("hosts", hosts, 40, 20)
    report("pairs", pairs, 1000, 10)


main()
