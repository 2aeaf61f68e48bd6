"""Dates of revisions and dates that a user gives."""
from __future__ import annotations

import os
import time
from typing import Callable
from unittest import mock

from svnask.errors import Denied
from svnask.history import dates, given_dates
from tests.ask.base import UtcTest

# Zones by their rules, which are known without a database.
RULES = {"Europe/Berlin": "CET-1CEST,M3.5.0,M10.5.0/3", "Australia/Sydney": "AEST-10AEDT,M10.1.0,M4.1.0/3"}


def clock_at(now: float) -> Callable[[], float]:
    return lambda: now


class Dates(UtcTest):
    def test_dates_are_shown_as_by_svn(self) -> None:
        for date, wanted in (
            (b"2026-01-02T03:04:05.678901Z", "2026-01-02 03:04:05 +0000 (Fri, 02 Jan 2026)"),
            (b"2026-1-2T3:4:5.6Z and more", "2026-01-02 03:04:05 +0000 (Fri, 02 Jan 2026)"),
            (b"2026-02-30T00:00:60.0Z", "2026-03-02 00:01:00 +0000 (Mon, 02 Mar 2026)"),
            (
                b"Sat 3 Jan 2026 03:04:05.123 (day 003, dst 0, gmt_off 000000)",
                "2026-01-03 03:04:05 +0000 (Sat, 03 Jan 2026)",
            ),
            (b"2026-01-02T03:04:05Z", "(invalid date)"),
            (b" 2026-01-02T03:04:05.0Z", "(invalid date)"),
            (b"2026-13-02T03:04:05.0Z", "(invalid date)"),
            (b"1969-01-02T03:04:05.0Z", "(invalid date)"),
            (b"1969-12-31T24:00:01.Z", "1970-01-01 00:00:01 +0000 (Thu, 01 Jan 1970)"),
            (b"10000-01-01T00:00:00.0Z", "10000-01-01 00:00:00 +0000 (Sat, 01 Jan 10000)"),
            (b"292277-01-01T00:00:00.0Z", "292277-01-01 00:00:00 +0000 (Mon, 01 Jan 292277)"),
            (b"2024-01-01T00:2147483647:00.0Z", "6107-01-24 02:07:00 +0000 (Mon, 24 Jan 6107)"),
            (b"2024-01-01T00:00:00.1234567Z", "2024-01-01 00:00:01 +0000 (Mon, 01 Jan 2024)"),
            (b"2024-02-2147483647T00:00:00.0Z", "(invalid date)"),
            (b"2024-01-123456789012345T00:00:00.0Z", "(invalid date)"),
            (b"9" * 5000 + b"-01-01T00:00:00.0Z", "(invalid date)"),
            (b"2024-01-01T00:00:00." + b"9" * 5000 + b"Z", "(invalid date)"),
            (b"Sat 3 Jan 2026 03:04:05.123 (day 003, dst 0, gmt_off " + b"9" * 5000 + b")", "(invalid date)"),
            (b"", "(no date)"),
            (None, "(no date)"),
        ):
            self.assertEqual(dates.shown_date(date), wanted)

    def test_hours_of_a_day_are_shown_as_its_seconds_are(self) -> None:
        """Also around midnight, where clocks are put forward and back, and where local time is half an hour ahead."""
        for zone in (*RULES.values(), "UTC0", "A-14", "B11", "C3:30", "D-5:30", "E-0:20", "F-1F-2,M3.5.0/0,M10.5.0/0"):
            with mock.patch.dict(os.environ, TZ=zone):
                time.tzset()
                clock = dates.Clock()
                for seconds in (*range(1711756800, 1711929600, 3599), *range(1729900800, 1730073600, 3599)):
                    date = time.strftime("%Y-%m-%dT%H:%M:%S.000000Z", time.gmtime(seconds)).encode("ascii")
                    wanted = time.strftime("%Y-%m-%d %H:%M:%S %z (%a, %d %b %Y)", time.localtime(seconds))
                    self.assertEqual(clock.shown(date), wanted.encode("ascii"), (zone, date))

    def test_given_dates_are_read(self) -> None:
        # fmt: off
        rows = (
            "2026-01-02", "20260102", "2026-01-02T00:00", "2026-01-02 00:00 +0000", "2026-01-02T01:00+01",
            "2026-01-02T00:00:00.000Z", "20260102T0000Z", "2026-1-2 0:00",
        )
        # fmt: on
        for text in rows:
            self.assertEqual(given_dates.given(text), (1767312000, 0), text)

    def test_dates_in_words_are_read(self) -> None:
        now = 1767312000.5
        rows = (
            ("3 days ago", 3 * 86400), ("1 hour ago", 3600), ("two weeks ago", 14 * 86400), ("zero minutes ago", 0),
            ("+2  mins  ago", 120), ("1 month ago", 30 * 86400), ("twelve years ago", 12 * 365 * 86400),
        )  # fmt: skip
        for text, seconds in rows:
            self.assertEqual(given_dates.given(text, lambda: now), (1767312000 - seconds, 500000), text)
        for text in ("3 days", "3 seconds ago", "-1 days ago", "many days ago", "99 years ago", "1 day ago."):
            with self.assertRaises(Denied, msg=text):
                given_dates.given(text, lambda: now)

    def test_other_dates_are_refused(self) -> None:
        # fmt: off
        rows = (
            "2026-01-02T24:00", "2026-02-30", "2026-13-01", "2026-11", "1969-12-31", " 2026-01-02", "soon", "",
            "2026-01-02T00:00:00.1234567Z", "2026-01-02T00:00:00.Z", "0:00 Z", "2026-01-02T00:00+99",
            "2026-01-02T00:00+24", "2026-01-02T00:00+00:60", "2026-01-02 00:00Z", "2026-01-02 00:00 Z",
            "2026-01-02 00:00+01", "2026-01-02 00:00 +01:00", "20260102T000000+01:00", "\u0662026-01-02",
            "9" * 5000 + "-01-01",
        )
        # fmt: on
        for text in rows:
            with self.assertRaises(Denied, msg=text):
                given_dates.given(text)

    def test_a_date_names_the_last_revision_before_it(self) -> None:
        stored = [b"2026-01-0%dT00:00:00.0Z" % day for day in range(1, 10)]
        for day in range(1, 10):
            when = given_dates.given("2026-01-0%dT12:00Z" % day)
            self.assertEqual(dates.revision_at(when, 8, stored.__getitem__), day - 1)
        self.assertEqual(dates.revision_at(given_dates.given("2025-01-01"), 8, stored.__getitem__), 0)

    def test_of_two_moments_with_one_local_time_that_of_the_season_is_taken(self) -> None:
        """As `svn` 1.14 takes them, today in each of these zones."""
        winter, summer = 1732700000.0, 1720000000.0
        for zone, now, text, wanted in (
            ("Europe/Berlin", winter, "2024-10-27 02:30", "2024-10-27T01:30Z"),
            ("Europe/Berlin", summer, "2024-10-27 02:30", "2024-10-27T00:30Z"),
            ("Europe/Berlin", winter, "2024-03-31 02:30", "2024-03-31T00:30Z"),
            ("Europe/Berlin", winter, "2024-07-01 02:30", "2024-07-01T00:30Z"),
            ("Australia/Sydney", winter, "2024-04-07 02:30", "2024-04-06T15:30Z"),
            ("Australia/Sydney", winter, "2024-10-06 02:30", "2024-10-05T16:30Z"),
        ):
            with mock.patch.dict(os.environ, TZ=RULES[zone]):
                time.tzset()
                self.assertEqual(given_dates.given(text, clock_at(now)), given_dates.given(wanted), (zone, text))
