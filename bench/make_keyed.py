"""Writes a request file to standard output: the SetRequests that make so many rows of some control tables valid.

    make_keyed.py ROWS TABLE..

A table is `hosts` (hostControl), `matrix` (matrixControl), `layers` (hlHostControl), `layer_pairs` (hlMatrixControl) or `reports`
(hostTopNControl, whose rows report the hosts of row 1 that sent most octets in REPORT seconds).
"""

import sys

from make_requests import CREATE_REQUEST, RMON, ROWS, VALID, integer, set_status, setting

MOMENT = 0
CREATE_AND_GO = 4
REPORT = 600
OUT_OCTETS = 4

# The entry of each table with the columns of its owner and of its status.
TABLES = {
    "hosts": (RMON + (4, 1, 1), 5, 6),
    "matrix": (RMON + (6, 1, 1), 5, 6),
    "reports": (RMON + (5, 1, 1), 9, 10),
    "layers": (RMON + (14, 1, 1), 11, 12),
    "layer_pairs": (RMON + (15, 1, 1), 11, 12),
}

# What the rows of a table are given before they become valid, by the numbers of the columns: hostTopNHostIndex, RateBase and
# TimeRemaining.
GIVEN = {"reports": {2: 1, 3: OUT_OCTETS, 4: REPORT}}


def made_valid(word, row):
    """The SetRequests that make a row of a table valid."""
    table = TABLES[word]
    if word in ("layers", "layer_pairs"):
        return [set_status(table, row, CREATE_AND_GO)]
    given = [(table[0] + (column, row), integer(number)) for column, number in GIVEN.get(word, {}).items()]
    return [set_status(table, row, CREATE_REQUEST)] + ([setting(given)] if given else []) + [set_status(table, row, VALID)]


def main():
    rows = ROWS[: int(sys.argv[1])]
    datagrams = [octets for word in sys.argv[2:] for row in rows for octets in made_valid(word, row)]
    sys.stdout.writelines(f"{MOMENT} {octets.hex()}\n" for octets in datagrams)


main()
