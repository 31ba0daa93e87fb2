"""A tray of star reports: collected first, filed into a star file afterwards."""
from __future__ import annotations

import ctypes
from typing import NamedTuple

import numpy as np

from .library import Report, TrayHandle, calls
from .refusals import BAD_LENGTH, BAD_PARAMETERS, OUT_OF_TURN, Refused, refuse
from .starfile import Position, StarFile

PLACES, WORDS = 256, 32
REPORT = np.dtype(
    {
        "names": ["number", "ra", "dec", "owner", "removed"],
        "formats": [np.uint32, np.uint32, np.int32, np.uint8, np.uint8],
        "offsets": [0, 4, 8, 12, 13],
        "itemsize": 16,
    }
)


def _within(value: int, low: int, high: int, substitute: int) -> int:
    """The value, or one that the call refuses: numpy would not store it."""
    return value if low <= value <= high else substitute


class Filing(NamedTuple):
    """How many reports were filed, and the refusal of the one at which it stopped."""

    filed: int
    refusal: Refused | None


class Tray:
    """Up to 256 reports on the stars of one file that wait to be filed, with a filter of 2,048 bits before them.

    The latest report on a star answers a look-up before the file does. A refusal is raised as Refused, and tray and filter are as they
    were then.

    >>> file = StarFile()
    >>> tray = Tray(file)
    >>> tray.add(48915, 365137051, -60170925)
    >>> tray.get(48915)
    Position(ra=365137051, dec=-60170925)
    >>> file.get(48915) is None, len(tray), tray.bits()
    (True, 1, 3)
    >>> tray.file_reports()
    Filing(filed=1, refusal=None)
    >>> 48915 in file, len(tray)
    (True, 0)
    """

    def __init__(self, file: StarFile):
        self.file = file
        self._reports, self._filter = np.zeros(PLACES, REPORT), np.zeros(WORDS, np.uint64)
        assert REPORT.itemsize == ctypes.sizeof(Report)
        self._handle = TrayHandle(self._reports.ctypes.data, PLACES, self._filter.ctypes.data, WORDS, 0)

    def __len__(self) -> int:
        """How many reports wait."""
        return self._handle.count

    def __repr__(self) -> str:
        return f"<Tray: {len(self)} of {PLACES} reports wait>"

    @property
    def reports(self) -> np.ndarray:
        """The reports that wait, the earliest first, for reading."""
        view = self._reports[: len(self)]
        view.flags.writeable = False
        return view

    @property
    def filter(self) -> np.ndarray:
        """The filter's words, lowest bits first, for reading."""
        view = self._filter.view()
        view.flags.writeable = False
        return view

    def add(self, number: int, ra: int, dec: int, owner: int = 0) -> None:
        """Adds a report of a star's position, to be filed for its owner."""
        self._add(number, _within(ra, 0, 2**32 - 1, 2**32 - 1), _within(dec, -(2**31), 2**31 - 1, 2**31 - 1), owner, 0)

    def remove(self, number: int, owner: int = 0) -> None:
        """Adds a report that a star is to be removed."""
        self._add(number, 0, 0, owner, 1)

    def _add(self, number: int, ra: int, dec: int, owner: int, removed: int) -> None:
        if not 0 <= owner <= 255:
            raise ValueError(f"an owner is 0 to 255, not {owner}")
        report = Report(_within(number, 0, 2**32 - 1, 0), ra, dec, owner, removed)
        refuse(calls.add_report(self.file._handle, self._handle, report).refusal, star=number)

    def get(self, number: int, default: object = None):
        """The star's Position by the latest report on it, or else by the file; default if that is a removal, or neither has the star."""
        reply = calls.look_up_with_tray(self.file._handle, self._handle, _within(number, 0, 2**32 - 1, 0))
        refuse(reply.refusal, reply.page, reply.place, number)
        return Position(reply.ra, reply.dec) if reply.found else default

    def file_reports(self) -> Filing:
        """Files the reports in order, each for its owner: a star of the file is changed or removed, another is entered.

        It stops at the first report that is refused, which then is the first to wait, and answers how many were filed and that refusal.
        """
        filed = calls.file_reports(self.file._handle, self._handle)
        if filed.refusal in (BAD_PARAMETERS, BAD_LENGTH, OUT_OF_TURN):
            refuse(filed.refusal)
        stopped = Refused(filed.refusal, filed.page, filed.place, int(self._reports[0]["number"])) if filed.refusal else None
        return Filing(filed.filed, stopped)

    def bits(self) -> int:
        """How many of the filter's 2,048 bits are set."""
        reply = calls.filter_bits(self._handle)
        refuse(reply.refusal)
        return reply.bits
