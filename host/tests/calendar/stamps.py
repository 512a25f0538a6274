"""Timestamps of ECMA-167 1/7.3 and what they tell, by Python's datetime: a calendar that shares nothing with the core or the model.

Prints a line for each timestamp: its 12 bytes in hex, then the minutes from 1 January 1970 UTC and 1 if the zone is not given or else 0; or - if it breaks
the limits of document 02. First comes every day of the range at midnight UTC, in order.
"""

import struct
import sys
from datetime import date, datetime, timedelta

EPOCH = datetime(1970, 1, 1)
FIRST, LAST = date(1970, 1, 1), date(2099, 12, 31)
NOT_GIVEN = -2047
MINUTE = timedelta(minutes=1)

# Days at the ends of the range, of a year and of the month that leap years lengthen.
ODD_DAYS = [(1970, 1, 1), (1971, 12, 31), (1972, 2, 29), (2000, 2, 29), (2000, 3, 1), (2038, 1, 19), (2096, 2, 29), (2099, 12, 31)]


def packed(year, month, day, hour=0, minute=0, second=0, fractions=(0, 0, 0), zone=0, kind=1):
    return struct.pack("<HH8B", kind << 12 | zone & 0xFFF, year, month, day, hour, minute, second, *fractions)


def told(stamp):
    """The minutes and the mark, or nothing if a limit is broken."""
    first, year, month, day, hour, minute, second, *fractions = struct.unpack("<HH8B", stamp)
    kind, zone = first >> 12, (first & 0x7FF) - (first & 0x800)
    zone_is_kept = -1440 <= zone <= 1440 or zone == NOT_GIVEN
    if kind != 1 or not 1970 <= year <= 2099 or max(fractions) > 99 or not zone_is_kept:
        return None
    try:
        local = datetime(year, month, day, hour, minute, second)
    except ValueError:
        return None
    given = zone != NOT_GIVEN
    utc = local.replace(second=0) - (zone * MINUTE if given else timedelta())
    return (utc - EPOCH) // MINUTE, 0 if given else 1


def days():
    for ordinal in range(FIRST.toordinal(), LAST.toordinal() + 1):
        yield date.fromordinal(ordinal)


def every_day():
    """Midnight UTC, in order."""
    for day in days():
        yield packed(day.year, day.month, day.day)


def every_day_at_other_times():
    """The day's last second at an end of the zone, a time and zone that go round with the day, and the same without a zone."""
    for count, day in enumerate(days()):
        end = 1440 if count % 2 else -1440
        yield packed(day.year, day.month, day.day, 23, 59, 59, (99, 99, 99), end)
        time = count % 24, count % 60, count % 59
        yield packed(day.year, day.month, day.day, *time, zone=count * 7 % 2881 - 1440)
        yield packed(day.year, day.month, day.day, *time, zone=NOT_GIVEN)


def dates_that_may_be_none():
    """Every month from 0 to 13 and day from 0 to 32, also of the years about the range."""
    for year in [0, 1900, *range(1968, 2102), 2400, 65535]:
        for month in range(14):
            for day in range(33):
                yield packed(year, month, day, 12)


def every_zone():
    """All 12 bits on the odd days, and all 16 with the type on one of them."""
    for day in ODD_DAYS:
        for zone in range(4096):
            yield packed(*day, 12, 30, zone=zone)
    for first in range(65536):
        yield packed(1972, 2, 29, 12, 30, zone=first, kind=first >> 12)


def every_value_of_a_field():
    """Each byte from the month on with all its values, and all years, while the others stay."""
    for day in ODD_DAYS:
        whole = packed(*day, 12, 30, 45, (10, 20, 30), 60)
        for at in range(4, 12):
            for value in range(256):
                yield whole[:at] + bytes([value]) + whole[at + 1 :]
    for year in range(65536):
        yield packed(year, 1, 1)


def main():
    sets = [every_day, every_day_at_other_times, dates_that_may_be_none, every_zone, every_value_of_a_field]
    for stamps in sets:
        for stamp in stamps():
            answer = told(stamp)
            sys.stdout.write(f"{stamp.hex()} {answer[0]} {answer[1]}\n" if answer else f"{stamp.hex()} -\n")


if __name__ == "__main__":
    main()
