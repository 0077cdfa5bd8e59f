"""Writes a request file to standard output: the SetRequests that make all rows, of which so many alarms become valid.

    make_rows.py ALARMS INTERVAL

All rows of the other tables become valid. An alarm is sampled every so many seconds, and crosses no threshold.
"""

import sys

from make_requests import (
    ALARM, CONTROL_TABLES, ETHER_STATS_PKTS, ROWS, VALID, integer, name, set_status, set_up, setting
)

MOMENT = 0
LEAST, GREATEST = -(2**31), 2**31 - 1

# The columns of alarmTable that are set.
INTERVAL, VARIABLE, RISING_THRESHOLD, FALLING_THRESHOLD = 2, 3, 7, 8


def alarm(row, interval):
    """Sets what an alarm needs."""
    values = {
        INTERVAL: integer(interval),
        VARIABLE: name(ETHER_STATS_PKTS),
        RISING_THRESHOLD: integer(GREATEST),
        FALLING_THRESHOLD: integer(LEAST),
    }
    return setting([(ALARM + (column, row), value) for column, value in values.items()])


def main():
    alarms, interval = map(int, sys.argv[1:])
    alarm_table, event_table = CONTROL_TABLES[2:]
    datagrams = list(set_up())
    datagrams += [set_status(event_table, row, VALID) for row in ROWS]
    for row in ROWS[:alarms]:
        datagrams += [alarm(row, interval), set_status(alarm_table, row, VALID)]
    sys.stdout.writelines(f"{MOMENT} {octets.hex()}\n" for octets in datagrams)


main()
