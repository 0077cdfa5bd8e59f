"""Writes a request file to standard output: the SetRequests that make so many channels valid, each with one filter.

    make_filters.py CHANNELS OFFSET [GRANTED]

A filter asks for 128 octets of zeros, from the offset on, and looks at all of their bits. With GRANTED the first channel is on, and a
buffer of so many octets captures its packets whole, and wraps.
"""

import sys

from make_requests import CREATE_REQUEST, OCTETS, RMON, ROWS, VALID, element, integer, set_status, setting

MOMENT = 0
OCTETS_OF_DATA = 128

# The entries with the columns of their owner and of their status.
FILTER = (RMON + (7, 1, 1), 10, 11)
CHANNEL = (RMON + (7, 2, 1), 11, 12)
BUFFER = (RMON + (8, 1, 1), 12, 13)

# The columns of filterTable that are set.
CHANNEL_INDEX, OFFSET, DATA, MASK, NOT_MASK = 2, 3, 4, 5, 6

# The column of channelTable, and those of bufferControlTable, that are set.
DATA_CONTROL = 4
BUFFER_CHANNEL, FULL_ACTION, SLICE_SIZE, OCTETS_REQUESTED = 2, 4, 5, 8

ON, WRAP, WHOLE = 1, 2, 0


def made_valid(row, offset):
    """The SetRequests that make a channel and its filter valid."""
    values = {
        CHANNEL_INDEX: integer(row),
        OFFSET: integer(offset),
        DATA: element(OCTETS, bytes(OCTETS_OF_DATA)),
        MASK: element(OCTETS, b"\xff" * OCTETS_OF_DATA),
        NOT_MASK: element(OCTETS, bytes(OCTETS_OF_DATA)),
    }
    yield set_status(CHANNEL, row, CREATE_REQUEST)
    yield set_status(CHANNEL, row, VALID)
    yield set_status(FILTER, row, CREATE_REQUEST)
    yield setting([(FILTER[0] + (column, row), value) for column, value in values.items()])
    yield set_status(FILTER, row, VALID)


def captured(channel, granted):
    """The SetRequests that turn a channel on, and make a buffer of it valid."""
    values = {
        BUFFER_CHANNEL: integer(channel),
        FULL_ACTION: integer(WRAP),
        SLICE_SIZE: integer(WHOLE),
        OCTETS_REQUESTED: integer(granted),
    }
    yield setting([(CHANNEL[0] + (DATA_CONTROL, channel), integer(ON))])
    yield set_status(BUFFER, channel, CREATE_REQUEST)
    yield setting([(BUFFER[0] + (column, channel), value) for column, value in values.items()])
    yield set_status(BUFFER, channel, VALID)


def main():
    channels, offset = map(int, sys.argv[1:3])
    datagrams = [octets for row in ROWS[:channels] for octets in made_valid(row, offset)]
    if sys.argv[3:]:
        datagrams += captured(ROWS[0], int(sys.argv[3]))
    sys.stdout.writelines(f"{MOMENT} {octets.hex()}\n" for octets in datagrams)


main()
