"""Writes a request file to standard output: the SetRequests that make sixteen histories of 1024 buckets of a second, and then so many
datagrams of each kind over them, in turn.

    make_histories.py COUNT [KIND]..

The buckets are full once 1024 seconds have passed.
"""

import sys

from make_requests import (
    BULK, CREATE_REQUEST, GET, HISTORY_CONTROL, NEXT, OCTETS, RMON, ROWS, VALID, asking, datagram, element, integer, set_status, setting
)

ASKED = 1_100_500
BUCKETS = 1024
REPETITIONS = 20

# The columns of historyControlTable that are set, and the object of etherHistoryTable that is asked.
BUCKETS_REQUESTED, INTERVAL, OWNER, STATUS = 3, 5, 6, 7
ETHER_HISTORY_PKTS = RMON + (2, 2, 1, 6)

# Buckets that are among the last ones, with those that a GetBulkRequest goes on to.
FIRST, LAST = 100, 1000


def histories():
    """Makes the sixteen rows, and makes them valid."""
    table = (HISTORY_CONTROL, OWNER, STATUS)
    for row in ROWS:
        yield set_status(table, row, CREATE_REQUEST)
        columns = {BUCKETS_REQUESTED: integer(BUCKETS), INTERVAL: integer(1)}
        yield setting([(HISTORY_CONTROL + (column, row), value) for column, value in columns.items()])
        yield set_status(table, row, VALID)


def bucket(number):
    """The name of one history's bucket after another's."""
    row = ROWS[number % len(ROWS)]
    return ETHER_HISTORY_PKTS + (row, FIRST + number * 7 % (LAST - FIRST))


KINDS = {
    "get": lambda number: datagram(GET, asking([bucket(number)])),
    "next": lambda number: datagram(NEXT, asking([bucket(number)])),
    "bulk": lambda number: datagram(BULK, asking([bucket(number)]), second=REPETITIONS),
    "set": lambda number: setting([(HISTORY_CONTROL + (OWNER, ROWS[number % len(ROWS)]), element(OCTETS, b"bench"))]),
}


def main():
    count, kinds = int(sys.argv[1]), sys.argv[2:]
    sys.stdout.writelines(f"0 {octets.hex()}\n" for octets in histories())
    for number in range(count):
        sys.stdout.writelines(f"{ASKED} {KINDS[kind](number).hex()}\n" for kind in kinds)


main()
