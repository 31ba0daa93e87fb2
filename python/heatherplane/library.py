"""The shared library behind the package: where it is found, its structures, and its calls on a handle."""
from __future__ import annotations

import ctypes
import os
from ctypes import c_bool, c_int32, c_size_t, c_uint8, c_uint32, c_uint64, c_void_p
from pathlib import Path

NAME = "libheatherplane.so.0.9"


class Parameters(ctypes.Structure):
    """A file's parameters, which it keeps: see StarFile for what they mean."""

    _fields_ = [(name, c_uint32) for name in ("places", "groups", "width", "step", "bits", "load", "pages", "multiplier")]

    def __repr__(self) -> str:
        return "Parameters(" + ", ".join(f"{name}={getattr(self, name)}" for name, _ in self._fields_) + ")"

    def __eq__(self, other: object) -> bool:
        return isinstance(other, Parameters) and bytes(self) == bytes(other)


class Growth(ctypes.Structure):
    """A growth record: partial expansions finished, groups expanded in the present one, whether a growth is open, its steps done."""

    _fields_ = [(name, c_uint32) for name in ("expansions", "expanded", "open", "steps")]

    def __repr__(self) -> str:
        return "Growth(" + ", ".join(f"{name}={getattr(self, name)}" for name, _ in self._fields_) + ")"

    def __eq__(self, other: object) -> bool:
        return isinstance(other, Growth) and bytes(self) == bytes(other)


class Reply(ctypes.Structure):
    _fields_ = [
        ("refusal", c_uint32), ("page", c_uint32), ("place", c_uint32), ("ra", c_uint32), ("dec", c_int32),
        ("found", c_bool), ("due", c_bool), ("stars", c_uint32), ("growth", Growth),
    ]  # fmt: skip


BUFFERS = ("separators", "numbers", "words", "owners")
POOL = ("pool_numbers", "pool_words", "pool_owners")


class Handle(ctypes.Structure):
    """struct heatherplane_file: parameters, record, and each buffer's address and length."""

    _fields_ = [("parameters", Parameters), ("growth", Growth)] + [
        field for name in BUFFERS + POOL for field in ((name, c_void_p), (name + "_length", c_size_t))
    ]

    def __init__(self, *values: object):
        super().__init__(*values)
        # The same memory, as the calls take it: the numbers of parameters and record, and the addresses and lengths.
        self.values = (c_uint32 * 12).from_buffer(self)
        self.lent = (c_size_t * 14).from_buffer(self, Handle.separators.offset)


class TrayHandle(ctypes.Structure):
    """struct heatherplane_tray: the list's and the filter's address and length, and the count."""

    _fields_ = [
        ("reports", c_void_p), ("reports_length", c_size_t), ("filter", c_void_p), ("filter_length", c_size_t), ("count", c_uint32),
    ]  # fmt: skip


class Report(ctypes.Structure):
    _fields_ = [("number", c_uint32), ("ra", c_uint32), ("dec", c_int32), ("owner", c_uint8), ("removed", c_uint8)]


class Added(ctypes.Structure):
    _fields_ = [("refusal", c_uint32), ("count", c_uint32)]


class Filed(ctypes.Structure):
    _fields_ = [("refusal", c_uint32), ("page", c_uint32), ("place", c_uint32), ("filed", c_uint32), ("count", c_uint32)]


class Bits(ctypes.Structure):
    _fields_ = [("refusal", c_uint32), ("bits", c_uint32)]


class ImageHeader(ctypes.Structure):
    _fields_ = [
        ("magic", c_uint8 * 8), ("version", c_uint32), ("flags", c_uint32), ("parameters", Parameters), ("growth", Growth),
        ("length", c_uint64), ("zero", c_uint32), ("crc", c_uint32),
    ]  # fmt: skip


def _find() -> str:
    """HEATHERPLANE_LIBRARY if it is set; the library of the repository, or of the prefix, that this package stands in; or the system's."""
    given = os.environ.get("HEATHERPLANE_LIBRARY")
    if given:
        return given
    here = Path(__file__).resolve().parent
    for folder in (here.parents[1] / "target" / "staticlib", here.parents[2]):
        for place in sorted(folder.glob(NAME + "*")):
            if not place.name.endswith((".new", ".sum")):
                return str(place)
    return NAME


_FILE, _POOL = [c_void_p, c_size_t] * 4, [c_void_p, c_size_t] * 3
_PARAMETERS, _RECORD = [c_uint32] * 8, [c_uint32] * 4
_STAR, _POSITION, _BYTES = [c_uint8, c_uint32], [c_uint32, c_int32], [c_void_p, c_size_t]
_SIGNATURES = {
    "version": [],
    "make": _PARAMETERS + _FILE,
    "state_for": _PARAMETERS + [c_uint32],
    "look_up": _PARAMETERS + _RECORD + _FILE + [c_uint32],
    "enter": _PARAMETERS + _RECORD + _FILE + _POOL + _STAR + _POSITION,
    "change": _PARAMETERS + _RECORD + _FILE + _STAR + _POSITION,
    "remove": _PARAMETERS + _RECORD + _FILE + _POOL + _STAR,
    "due": _PARAMETERS + _RECORD + _FILE,
    "grow": _PARAMETERS + _RECORD + _FILE + _POOL,
    "shrink": _PARAMETERS + _RECORD + _FILE + _POOL,
    "check": _PARAMETERS + _RECORD + _FILE + _POOL,
    "mend": _PARAMETERS + _RECORD + _FILE + _POOL,
    "write_table": _PARAMETERS + _RECORD + _FILE + _BYTES,
    "read_table": _PARAMETERS + _RECORD + _FILE + _POOL + _BYTES,
    "carry": _PARAMETERS + _RECORD + _FILE + _PARAMETERS + _RECORD + _FILE + _POOL,
    "open_growth": _PARAMETERS + _RECORD + _FILE + _FILE + _POOL,
    "step_growth": _PARAMETERS + _RECORD + _FILE + _FILE + _POOL,
    "replay": _PARAMETERS + [c_uint32] * 2 + _FILE + _POOL + _BYTES * 6,
    "mark_changed": _PARAMETERS + [c_uint32] * 2 + _BYTES * 3,
    "add_report": [Parameters, Growth] + _BYTES + [c_uint32] + _BYTES + [Report],
    "look_up_with_tray": [Parameters, Growth] + _FILE + _BYTES + [c_uint32] + _BYTES + [c_uint32],
    "file_reports": [Parameters, Growth] + _FILE + _POOL + _BYTES + [c_uint32] + _BYTES,
    "filter_bits": _BYTES,
}
_ANSWERS = {"version": c_uint32, "mark_changed": c_uint32, "add_report": Added, "file_reports": Filed, "filter_bits": Bits}


class Calls:
    """The library's calls, each on a handle. Those that change the growth record store the new one, if they are accepted."""

    def __init__(self, path: str):
        try:
            library = ctypes.CDLL(path)
        except OSError as why:
            raise ImportError(f"{path} cannot be loaded: run make library, or set HEATHERPLANE_LIBRARY") from why
        for name, arguments in _SIGNATURES.items():
            function = getattr(library, "heatherplane_" + name, None)
            if function is None:
                raise ImportError(f"{path} is of another version than this package: it has no heatherplane_{name}")
            function.argtypes, function.restype = arguments, _ANSWERS.get(name, Reply)
            setattr(self, "_" + name, function)

    @staticmethod
    def _numbers(handle: Handle) -> list[int]:
        """Parameters and record."""
        return handle.values[:]

    @staticmethod
    def _lent(handle: Handle) -> list[int]:
        """Addresses and lengths: eight of the file, then six of the pool."""
        return handle.lent[:]

    @staticmethod
    def _kept(handle: Handle, reply: Reply) -> Reply:
        if not reply.refusal:
            handle.growth = reply.growth
        return reply

    def version(self) -> int:
        return self._version()

    def make(self, handle: Handle) -> Reply:
        return self._kept(handle, self._make(*self._numbers(handle)[:8], *self._lent(handle)[:8]))

    def make_for(self, handle: Handle, stars: int) -> Reply:
        reply = self.make(handle)
        return reply if reply.refusal else self._kept(handle, self._state_for(*self._numbers(handle)[:8], stars))

    def look_up(self, handle: Handle, number: int) -> Reply:
        return self._look_up(*self._numbers(handle), *self._lent(handle)[:8], number)

    def enter(self, handle: Handle, caller: int, number: int, ra: int, dec: int) -> Reply:
        return self._enter(*self._numbers(handle), *self._lent(handle), caller, number, ra, dec)

    def change(self, handle: Handle, caller: int, number: int, ra: int, dec: int) -> Reply:
        return self._change(*self._numbers(handle), *self._lent(handle)[:8], caller, number, ra, dec)

    def remove(self, handle: Handle, caller: int, number: int) -> Reply:
        return self._remove(*self._numbers(handle), *self._lent(handle), caller, number)

    def due(self, handle: Handle) -> Reply:
        return self._due(*self._numbers(handle), *self._lent(handle)[:8])

    def grow(self, handle: Handle) -> Reply:
        return self._kept(handle, self._grow(*self._numbers(handle), *self._lent(handle)))

    def shrink(self, handle: Handle) -> Reply:
        return self._kept(handle, self._shrink(*self._numbers(handle), *self._lent(handle)))

    def check(self, handle: Handle) -> Reply:
        return self._check(*self._numbers(handle), *self._lent(handle))

    def mend(self, handle: Handle) -> Reply:
        return self._mend(*self._numbers(handle), *self._lent(handle))

    def write_table(self, handle: Handle, out: int, length: int) -> Reply:
        return self._write_table(*self._numbers(handle), *self._lent(handle)[:8], out, length)

    def read_table(self, handle: Handle, given: int, length: int) -> Reply:
        return self._read_table(*self._numbers(handle), *self._lent(handle), given, length)

    def carry(self, old: Handle, new: Handle) -> Reply:
        return self._carry(*self._numbers(old), *self._lent(old)[:8], *self._numbers(new), *self._lent(new))

    def open_growth(self, handle: Handle, second: Handle) -> Reply:
        lent = self._lent(handle)
        return self._kept(handle, self._open_growth(*self._numbers(handle), *lent[:8], *self._lent(second)[:8], *lent[8:]))

    def step_growth(self, handle: Handle, second: Handle) -> Reply:
        """After the last step the two have exchanged their buffers."""
        lent, other = self._lent(handle), self._lent(second)
        reply = self._kept(handle, self._step_growth(*self._numbers(handle), *lent[:8], *other[:8], *lent[8:]))
        if not reply.refusal and not reply.growth.open:
            handle.lent[:8], second.lent[:8] = other[:8], lent[:8]
        return reply

    def replay(self, handle: Handle, *arrays: tuple[int, int]) -> Reply:
        """Many calls: address and length of kinds, callers, numbers, right ascensions, declinations and answers."""
        lent = (item for array in arrays for item in array)
        reply = self._replay(*self._numbers(handle)[:10], *self._lent(handle), *lent)
        # A replay knows (e, x) alone: a growth that is open, while look-ups are replayed, stays so.
        if not reply.refusal:
            handle.growth.expansions, handle.growth.expanded = reply.growth.expansions, reply.growth.expanded
        return reply

    def mark_changed(self, handle: Handle, before: Growth, old: int, marks: int) -> int:
        pages, lent = handle.parameters.pages, self._lent(handle)
        return self._mark_changed(*self._numbers(handle)[:8], before.expansions, before.expanded, old, pages, *lent[:2], marks, pages)

    def add_report(self, handle: Handle, tray: TrayHandle, report: Report) -> Added:
        lent = (tray.reports, tray.reports_length, tray.count, tray.filter, tray.filter_length)
        added = self._add_report(handle.parameters, handle.growth, *lent, report)
        tray.count = added.count
        return added

    def look_up_with_tray(self, handle: Handle, tray: TrayHandle, number: int) -> Reply:
        lent = (tray.reports, tray.reports_length, tray.count, tray.filter, tray.filter_length)
        return self._look_up_with_tray(handle.parameters, handle.growth, *self._lent(handle)[:8], *lent, number)

    def file_reports(self, handle: Handle, tray: TrayHandle) -> Filed:
        lent = (tray.reports, tray.reports_length, tray.count, tray.filter, tray.filter_length)
        filed = self._file_reports(handle.parameters, handle.growth, *self._lent(handle), *lent)
        tray.count = filed.count
        return filed

    def filter_bits(self, tray: TrayHandle) -> Bits:
        return self._filter_bits(tray.filter, tray.filter_length)


calls = Calls(_find())


def version() -> str:
    """The library's version."""
    number = calls.version()
    return f"{number // 10000}.{number // 100 % 100}.{number % 100}"
