"""Numbers of decimal digits. A dump or a user may write as many as they like.

>>> number(b"0012"), number("9" * 5000) == LARGEST
(12, True)
"""
from __future__ import annotations

# What all larger numbers are read as: no dump has so many bytes or revisions.
LARGEST = (1 << 63) - 1
MOST = 18


def number(digits: str | bytes) -> int:
    """The number of some decimal digits, or `LARGEST` for one with more than 18 of them."""
    if len(digits) <= MOST:
        return int(digits)
    short = (digits if isinstance(digits, str) else digits.decode("ascii")).lstrip("0") or "0"
    return int(short) if len(short) <= MOST else LARGEST
