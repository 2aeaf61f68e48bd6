"""Dates of revisions: how `svn` prints them, and which revision a date names.

>>> read_date(b"2026-01-02T03:04:05.678901Z")
(1767323045, 678901)
>>> shown_date(b"2026-01-02T03:04:05.678901Z", "UTC")
'2026-01-02 03:04:05 +0000 (Fri, 02 Jan 2026)'
"""
from __future__ import annotations

import datetime
import re
import time
from collections.abc import Callable
from typing import NamedTuple

from svnask.digits import number
from svnask.errors import Denied

# Seconds since 1970, and microseconds.
Moment = tuple[int, int]

WEEKDAYS = (b"Mon", b"Tue", b"Wed", b"Thu", b"Fri", b"Sat", b"Sun")
MONTHS = (b"Jan", b"Feb", b"Mar", b"Apr", b"May", b"Jun", b"Jul", b"Aug", b"Sep", b"Oct", b"Nov", b"Dec")
STORED = re.compile(rb"(\d+)-(\d+)-(\d+)T(\d+):(\d+):(\d+)\.(\d*)Z")
# As Subversion writes it today: the hour, and what is shown as it is.
USUAL = re.compile(rb"(\d{4}-\d\d-\d\dT(?:[01]\d|2[0-3]))(:[0-5]\d:[0-5]\d)\.\d{6}Z")
OLD = re.compile(rb"\w{3} (\d+) (\w{3}) (\d+) (\d+):(\d+):(\d+)\.(\d+) \(day \d+, dst \d+, gmt_off (-?\d+)\)")
MICROS = 1000000
# Subversion keeps each part of a date in 32 bits, and a moment in microseconds in 64. What does not fit is unreadable.
MOST_OF_PART, MOST_SECONDS = (1 << 31) - 1, (1 << 63) // MICROS
# The number of the first day of 1970.
EPOCH = datetime.date(1970, 1, 1).toordinal()
# The calendar comes back after so many years, which have so many seconds.
CYCLE, SECONDS_OF_CYCLE = 400, 146097 * 86400


def moment(year: int, month: int, day: int, hour: int, minute: int, second: int, micros: int) -> Moment | None:
    """A moment by UTC. A day or a second too many is one of the next month or minute."""
    if not 1 <= month <= 12 or max(year, day, hour, minute, second, micros) > MOST_OF_PART:
        return None
    cycles, rest = divmod(year - 1970, CYCLE)
    seconds = seconds_of((1970 + rest, month, day, hour, minute, second)) + cycles * SECONDS_OF_CYCLE
    return None if not 0 <= seconds < MOST_SECONDS else (seconds + micros // MICROS, micros % MICROS)


def seconds_of(fields: tuple[int, int, int, int, int, int]) -> int:
    """Return the seconds since 1970 of a date by UTC, of which the day and what follows may be any."""
    year, month, day, hour, minute, second = fields
    days = datetime.date(year, month, 1).toordinal() - EPOCH + day - 1
    return ((days * 24 + hour) * 60 + minute) * 60 + second


def read_date(date: bytes) -> Moment | None:
    """The moment of a value of `svn:date`."""
    found = STORED.match(date)
    if found:
        year, month, day, hour, minute, second, micros = (number(each or b"0") for each in found.groups())
        return moment(year, month, day, hour, minute, second, micros)
    found = OLD.match(date)
    if found and found[2] in MONTHS:
        day, year, hour, minute, second, micros = (number(found[each]) for each in (1, 3, 4, 5, 6, 7))
        offset = number(found[8].lstrip(b"-")) * (-1 if found[8].startswith(b"-") else 1)
        when = moment(year, MONTHS.index(found[2]) + 1, day, hour, minute, second, micros)
        return None if when is None or abs(offset) > MOST_OF_PART else (when[0] - offset, when[1])
    return None


def shown_date(date: bytes | None, zone: str | None = None) -> str:
    """A value of `svn:date` as `svn log` prints it, in the local time zone or in UTC."""
    return Clock(zone).shown(date).decode("ascii")


class Day(NamedTuple):
    """A day of UTC where local time is so many whole hours ahead all day. `names` has the previous, the same and the
    next day, each for the begin and the end of the line."""

    hours: int
    zone: bytes
    names: list[tuple[bytes, bytes]]


class Clock:
    """A printer of dates, as long as the time zone stays the same. It looks up each day once."""

    def __init__(self, zone: str | None = None) -> None:
        self._zone = zone
        self._days: dict[bytes, Day | None] = {}
        # What stands before the minutes of an hour, and after its seconds.
        self._hours: dict[bytes, tuple[bytes, bytes] | None] = {}

    def shown(self, date: bytes | None) -> bytes:
        if not date:
            return b"(no date)"
        usual = USUAL.match(date)
        if usual:
            hour, rest = usual.groups()
            around = self._hours[hour] if hour in self._hours else self._hour(hour)
            if around is not None:
                return around[0] + rest + around[1]
        when = read_date(date)
        return b"(invalid date)" if when is None else b"%s %s %s (%s)" % date_parts(when[0], self._zone)

    def _hour(self, text: bytes) -> tuple[bytes, bytes] | None:
        date, _, hour = text.partition(b"T")
        day = self._day(date)
        around = None
        if day is not None:
            later, shown_hour = divmod(int(hour) + day.hours, 24)
            front, name = day.names[later]
            around = b"%s %02d" % (front, shown_hour), b" %s (%s)" % (day.zone, name)
        self._hours[text] = around
        return around

    def _day(self, text: bytes) -> Day | None:
        if text not in self._days:
            noon = read_date(text + b"T12:00:00.0Z")
            self._days[text] = None if noon is None else self._found(noon[0])
        return self._days[text]

    def _found(self, noon: int) -> Day | None:
        offsets = {0 if self._zone == "UTC" else offset_at(noon + each) for each in (-43200, 0, 43199)}
        hours, rest = divmod(offsets.pop(), 3600)
        if offsets or rest:
            return None
        days = [date_parts(noon - 3600 * hours + 86400 * each, self._zone) for each in (0, 1, -1)]
        return Day(hours, days[0][2], [(front, name) for front, _, _, name in days])


def date_parts(seconds: int, zone: str | None) -> tuple[bytes, bytes, bytes, bytes]:
    """The date, the time, the offset from UTC, and the date once more with names."""
    local = time.gmtime(seconds) if zone == "UTC" else time.localtime(seconds)
    minutes = local.tm_gmtoff // 60
    return (
        b"%04d-%02d-%02d" % local[:3],
        b"%02d:%02d:%02d" % local[3:6],
        b"%s%02d%02d" % (b"-" if minutes < 0 else b"+", *divmod(abs(minutes), 60)),
        b"%s, %02d %s %04d" % (WEEKDAYS[local.tm_wday], local.tm_mday, MONTHS[local.tm_mon - 1], local.tm_year),
    )


def offset_at(seconds: float) -> int:
    """By how much local time is ahead of UTC."""
    return time.localtime(seconds).tm_gmtoff


def moment_of(rev: int, date_of: Callable[[int], bytes | None]) -> Moment:
    date = date_of(rev)
    if date is None:
        raise Denied("E160000", f"Failed to find time on revision {rev}")
    found = read_date(date)
    if found is None:
        raise Denied("E125003", "Bogus date")
    return found


def revision_at(when: Moment, head: int, date_of: Callable[[int], bytes | None]) -> int:
    """The last revision with a date at or before a moment, found by halving as Subversion does it. Where dates do not
    rise, only the same halving finds the same revision."""
    bottom, top = 0, head
    while bottom <= top:
        middle = (top + bottom) // 2
        found = moment_of(middle, date_of)
        if found == when:
            return middle
        if found > when:
            if middle == 0 or moment_of(middle - 1, date_of) <= when:
                return max(middle - 1, 0)
            top = middle - 1
        else:
            if middle == head or moment_of(middle + 1, date_of) > when:
                return middle
            bottom = middle + 1
    return max(top, 0)
