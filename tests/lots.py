"""Lots for tests that draw: by hypothesis, which shrinks what fails to little, or by seeds where it is not installed."""
from __future__ import annotations

from random import Random
from typing import Callable

try:
    from hypothesis import HealthCheck, given, settings
    from hypothesis.strategies import randoms
except ImportError:
    CAN_SHRINK = False
else:
    CAN_SHRINK = True


def check_drawn(count: int, draw: Callable[[Random], bytes], check: Callable[[bytes], None]) -> None:
    """Check so many dumps, the same ones in each run. What a failure says ends with its dump."""

    def check_one(lot: Random) -> None:
        dump = draw(lot)
        try:
            check(dump)
        except Exception as error:
            shown = dump.decode("utf-8", "backslashreplace")
            raise AssertionError(f"{type(error).__name__}: {error}\n\nThe dump:\n{shown}") from error

    if CAN_SHRINK:
        checks = list(HealthCheck)
        fixed = settings(
            max_examples=count, derandomize=True, database=None, deadline=None, suppress_health_check=checks
        )
        fixed(given(randoms(use_true_random=False, note_method_calls=False))(check_one))()
        return
    for seed in range(count):
        check_one(Random(seed))
