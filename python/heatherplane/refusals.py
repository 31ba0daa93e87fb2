"""Refusals as exceptions."""
from __future__ import annotations

NAMES = (
    "accepted", "bad parameters", "bad length", "bad number", "bad position", "damaged", "held", "not held", "full", "ungrown",
    "bad header", "bad rows", "short output", "not owner", "tray full", "bad contents", "out of turn",
)  # fmt: skip

(
    ACCEPTED, BAD_PARAMETERS, BAD_LENGTH, BAD_NUMBER, BAD_POSITION, DAMAGED, HELD, NOT_HELD, FULL, UNGROWN,
    BAD_HEADER, BAD_ROWS, SHORT_OUTPUT, NOT_OWNER, TRAY_FULL, BAD_CONTENTS, OUT_OF_TURN,
) = range(17)  # fmt: skip

IMAGE_NAMES = ("accepted", "bad length", "bad magic", "bad version", "bad checksum", "unaligned", "torn")


class Refused(Exception):
    """A call was refused and the file is as it was.

    number is the refusal's number and name its name; page is the damaged page with DAMAGED, else 0; place is where the star was sought.
    """

    def __init__(self, number: int, page: int = 0, place: int = 0, star: int | None = None):
        self.number, self.page, self.place, self.star = number, page, place, star
        self.name = NAMES[number] if number < len(NAMES) else "unknown"
        where = f", page {page}, place {place}" if number == DAMAGED else ""
        super().__init__(self.name + where + (f" (star {star})" if star is not None else ""))


class NotHeld(Refused, KeyError):
    """The star is not in the file."""

    __str__ = Exception.__str__


class ImageRefused(Exception):
    """An image was refused before any call saw it: number and name as in docs/IMAGE.md."""

    def __init__(self, number: int, path: object):
        self.number, self.name = number, IMAGE_NAMES[number]
        super().__init__(f"{path}: {self.name}")


def refuse(number: int, page: int = 0, place: int = 0, star: int | None = None) -> None:
    """Raises what the number stands for, if it is a refusal."""
    if number:
        raise (NotHeld if number == NOT_HELD else Refused)(number, page, place, star)
