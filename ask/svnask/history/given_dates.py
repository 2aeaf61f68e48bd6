"""Dates as users give them in braces, in the forms that `svn` takes."""
from __future__ import annotations

import datetime
import re
import time
from collections.abc import Callable

from svnask.errors import Denied
from svnask.history.dates import MICROS, Moment, offset_at, seconds_of

TIME = r"(\d{1,2}):(\d\d)(?::(\d\d)(?:[.,](\d{1,6}))?)?"
BASIC_TIME = r"(\d\d)(\d\d)(?:(\d\d)(?:[.,](\d{1,6}))?)?"
ZONE = r"(?:(Z)|([+-])(\d\d)(?::?(\d\d))?)?"
BASIC_ZONE = r"(?:(Z)|([+-])(\d\d)(\d\d)?)?"
FORMS = [
    re.compile(form + r"\Z", re.ASCII)
    for form in (
        r"(\d{4})-(\d{1,2})-(\d{1,2})(?:T" + TIME + ZONE + r")?",
        r"(\d{4})-(\d{1,2})-(\d{1,2}) " + TIME + r"()(?: ([+-])(\d\d)(\d\d)?)?",
        r"(\d{4})(\d\d)(\d\d)(?:T" + BASIC_TIME + BASIC_ZONE + r")?",
    )
]
TODAY = re.compile(TIME + r"\Z", re.ASCII)
AGO = re.compile(r" *([a-z]+|\+?[0-9]{1,9}) +([^ ]+) +ago *\Z", re.ASCII)
NUMBERS = "zero one two three four five six seven eight nine ten eleven twelve".split()
# How many seconds a unit has, by how its name begins.
UNITS = {
    "year": 365 * 86400,
    "month": 30 * 86400,
    "week": 7 * 86400,
    "day": 86400,
    "hour": 3600,
    "minute": 60,
    "min": 60,
}


def given(text: str, now: Callable[[], float] = time.time) -> Moment:
    """The moment of a date that a user gives, in braces for `svn`. Without a zone it is local time."""
    words = AGO.match(text)
    if words:
        return before(now(), words[1], words[2], text)
    found = next((form.match(text) for form in FORMS if form.match(text)), None)
    today = TODAY.match(text)
    if found:
        year, month, day = (int(found[each]) for each in (1, 2, 3))
        clock, zone = found.groups()[3:7], found.groups()[7:]
    elif today:
        year, month, day = time.localtime(now())[:3]
        clock, zone = today.groups(), (None, None, None, None)
    else:
        raise unreadable(text)
    hour, minute, second = (int(part or 0) for part in clock[:3])
    micros = int(((clock[3] or "") + "000000")[:6])
    try:
        datetime.date(max(year, 1970), month, day)
    except ValueError as error:
        raise unreadable(text) from error
    if year < 1970 or hour > 23 or minute > 59 or second > 60:
        raise unreadable(text)
    if int(zone[2] or 0) > 23 or int(zone[3] or 0) > 59:
        raise unreadable(text)
    return when_of((year, month, day, hour, minute, second), zone, now()), micros


def before(now: float, count: str, unit: str, text: str) -> Moment:
    """The moment that was some units of time ago. Subversion takes all names that begin as those of units do."""
    amount = int(count) if count.lstrip("+").isdigit() else NUMBERS.index(count) if count in NUMBERS else None
    length = next((seconds for name, seconds in UNITS.items() if unit.startswith(name)), None)
    if amount is None or length is None or now < amount * length:
        raise unreadable(text)
    micros = int(now * MICROS) - amount * length * MICROS
    return micros // MICROS, micros % MICROS


def when_of(fields: tuple[int, int, int, int, int, int], zone: tuple[str | None, ...], now: float) -> int:
    """The seconds of a date in a zone. Of two moments with one local time it is the one with the offset of today."""
    utc, sign, hours, minutes = zone
    seconds = seconds_of(fields)
    if utc:
        return seconds
    if sign:
        offset = int(hours or 0) * 3600 + int(minutes or 0) * 60
        return seconds - (offset if sign == "+" else -offset)
    return seconds - offset_at(seconds - offset_at(now))


def unreadable(text: str) -> Denied:
    return Denied("E205000", "Syntax error in revision argument '{%s}'" % text)
