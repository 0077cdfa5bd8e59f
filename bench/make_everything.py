"""Writes a request file to standard output: the SetRequests that make all rows of all control tables, each with as much storage as it can
have. Of alarmTable and of filterTable the rows need none.

    make_everything.py
"""

import sys

from make_requests import CREATE_REQUEST, HISTORY_CONTROL, RMON, ROWS, VALID, integer, set_status, setting

MOMENT = 0
CREATE_AND_GO = 4
MOST_BUCKETS, MOST_OCTETS, REPORT = 65535, 1_048_576, 600
ON, WRAP, OUT_OCTETS = 1, 2, 4

# The entry of each table with the columns of its owner and of its status, and what a row is given before it becomes valid, by the numbers of
# the columns. Each filter is of the channel of its number, and so is each buffer.
TABLES = (
    ((HISTORY_CONTROL, 6, 7), lambda row: {3: MOST_BUCKETS}),
    ((RMON + (4, 1, 1), 5, 6), lambda row: {}),
    ((RMON + (5, 1, 1), 9, 10), lambda row: {2: row, 3: OUT_OCTETS, 4: REPORT}),
    ((RMON + (6, 1, 1), 5, 6), lambda row: {}),
    ((RMON + (7, 1, 1), 10, 11), lambda row: {2: row}),
    ((RMON + (7, 2, 1), 11, 12), lambda row: {4: ON}),
    ((RMON + (8, 1, 1), 12, 13), lambda row: {2: row, 4: WRAP, 5: 0, 8: MOST_OCTETS}),
    ((RMON + (9, 1, 1), 6, 7), lambda row: {}),
)

# Those whose status is a RowStatus, whose rows need nothing.
LAYERS = tuple((RMON + (group, 1, 1), None, 12) for group in (14, 15))


def made_valid(table, row, given):
    """The SetRequests that make a row of a table valid."""
    bindings = [(table[0] + (column, row), integer(number)) for column, number in given.items()]
    return [set_status(table, row, CREATE_REQUEST)] + ([setting(bindings)] if bindings else []) + [set_status(table, row, VALID)]


def main():
    datagrams = [octets for table, given in TABLES for row in ROWS for octets in made_valid(table, row, given(row))]
    datagrams += [set_status(table, row, CREATE_AND_GO) for table in LAYERS for row in ROWS]
    sys.stdout.writelines(f"{MOMENT} {octets.hex()}\n" for octets in datagrams)


main()
