"""Why there is no answer."""
from __future__ import annotations

from collections.abc import Sequence


class Error(Exception):
    """Why there is no answer, with the status with which the command ends, and further lines that help."""

    def __init__(self, text: str, status: int, advice: Sequence[str] = ()) -> None:
        super().__init__(text)
        self.status = status
        self.advice = advice


class Failed(Error):
    """Something could not be read, run or written."""

    def __init__(self, text: str, status: int = 3, advice: Sequence[str] = ()) -> None:
        super().__init__(text, status, advice)


class Damaged(Failed):
    """The copy of a dump in the cache is not as it was made."""

    def __init__(self) -> None:
        super().__init__("the cache is damaged: --no-cache reads the dump anew")


class Unreached(Error):
    """A repository could not be asked: what Subversion said of it, perhaps that there is nothing at a URL."""

    def __init__(self, text: str, advice: Sequence[str] = (), is_none_there: bool = False) -> None:
        super().__init__(text, 1, advice)
        self.is_none_there = is_none_there


class Usage(Error):
    """The arguments are wrong."""

    def __init__(self, text: str) -> None:
        super().__init__(text, 2)


class Denied(Error):
    """The question has no answer, as `svn` says it: an error code and a text."""

    def __init__(self, code: str, text: str, advice: Sequence[str] = ()) -> None:
        super().__init__(f"{code}: {text}", 1, advice)
        self.code = code


class Unsound(Error):
    """Something was found that should not be. All of it was printed."""

    def __init__(self) -> None:
        super().__init__("", 1)


class Refused(Error):
    """The dump is refused: the number and the name of the reason, and the byte or the record at which it is found."""

    def __init__(self, number: int, name: str, unit: str, place: int) -> None:
        super().__init__(f"dump refused: {number} {name} at {unit} {place}", 1)
        self.number = number
        self.name = name
        self.unit = unit
        self.place = place
