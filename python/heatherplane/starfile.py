"""A star file over numpy arrays."""
from __future__ import annotations

import os
from collections.abc import Iterator, Mapping
from typing import NamedTuple

import numpy as np

from . import images
from .library import BUFFERS, POOL, Growth, Handle, Parameters, calls
from .refusals import BAD_PARAMETERS, FULL, NOT_HELD, OUT_OF_TURN, ImageRefused, refuse

TYPES = {"separators": np.uint8, "numbers": np.uint32, "words": np.uint64, "owners": np.uint8}
RA_END = 1_296_000_000  # a full turn in milliarcseconds
DEC_END = 324_000_000
LOOK_UP, ENTER, CHANGE, REMOVE = range(4)  # kinds of a replay's calls


class Position(NamedTuple):
    """Right ascension and declination in milliarcseconds."""

    ra: int
    dec: int

    @property
    def degrees(self) -> tuple[float, float]:
        return self.ra / 3_600_000, self.dec / 3_600_000

    @property
    def skycoord(self):
        """The position as an astropy SkyCoord."""
        from astropy import units
        from astropy.coordinates import SkyCoord

        return SkyCoord(self.ra * units.mas, self.dec * units.mas, frame="icrs")


class Found(NamedTuple):
    """What get_many answers, an array each, in the order of the numbers asked for. Where found is False, ra and dec are 0."""

    found: np.ndarray
    ra: np.ndarray
    dec: np.ndarray
    page: np.ndarray
    refusals: np.ndarray


def whole(values: object, low: int, high: int, substitute: int, kind: type) -> np.ndarray:
    """Whole numbers as an array for the library, those outside low to high replaced by one that every call refuses."""
    array = np.atleast_1d(np.asarray(values))
    if array.ndim != 1 or array.dtype.kind not in "iu":
        if array.size == 0:
            return np.zeros(0, kind)
        raise TypeError(f"one-dimensional whole numbers are needed, not {array.ndim}-dimensional {array.dtype}")
    if array.dtype == kind:
        return np.ascontiguousarray(array)
    return np.where((array >= low) & (array <= high), array, substitute).astype(kind)


def _numbers(values: object) -> np.ndarray:
    return whole(values, 0, 2**32 - 1, 0, np.uint32)


def _positions(ra: object, dec: object) -> tuple[np.ndarray, np.ndarray]:
    return whole(ra, 0, 2**32 - 1, 2**32 - 1, np.uint32), whole(dec, -(2**31), 2**31 - 1, 2**31 - 1, np.int32)


def _caller(caller: int) -> int:
    if not 0 <= caller <= 255:
        raise ValueError(f"a caller is 0 to 255, not {caller}")
    return caller


def _alike(numbers: np.ndarray, ra: np.ndarray, dec: np.ndarray) -> None:
    if not len(numbers) == len(ra) == len(dec):
        raise ValueError(f"arrays of {len(numbers)} numbers, {len(ra)} right ascensions and {len(dec)} declinations")


class StarFile(Mapping):
    """A star file: star numbers to positions, in numpy arrays that are lent to the proved calls.

    places   places of a page, 1 to 32              bits     bits of a separator, 1 to 8
    groups   first groups, 1 to 256                 load     load in per cent above which growth is due, 1 to 99
    width    first pages of a group, 1 to 4         pages    pages at most: width * groups to 1024
    step     step of a sweep, 1 to groups           multiplier  16807 or 48271
    stars    if given, the file begins with enough pages addressed for so many stars

    A refusal is raised as Refused, with number, name, page and place; the file is as it was then. As a mapping, a file has the numbers
    of its stars in rising order, and a Position for each.

    >>> file = StarFile(stars=5000)
    >>> file.enter(48915, 365137051, -60170925)
    26
    >>> file[48915]
    Position(ra=365137051, dec=-60170925)
    """

    def __init__(
        self, places: int = 32, groups: int = 8, width: int = 2, step: int = 5, bits: int = 8, load: int = 80, pages: int = 1024,
        multiplier: int = 48271, *, stars: int | None = None,
    ):  # fmt: skip
        values = (places, groups, width, step, bits, load, pages, multiplier)
        if any(not 0 <= value < 2**32 for value in values):
            refuse(BAD_PARAMETERS)
        self._lend(Parameters(*values), Growth())
        reply = calls.make(self._handle) if stars is None else calls.make_for(self._handle, max(0, min(stars, 2**32 - 1)))
        refuse(reply.refusal)

    @classmethod
    def sized_for(cls, stars: int, **parameters: int) -> "StarFile":
        """An empty file with about as many pages as so many stars need at its load, and some for overflow; they are addressed at once."""
        places, load = parameters.get("places", 32), parameters.get("load", 80)
        first = parameters.get("width", 2) * parameters.get("groups", 8)
        needed = -(-100 * stars // (places * load))
        parameters.setdefault("pages", min(1024, max(first, needed) + max(8, needed // 32)))
        return cls(stars=stars, **parameters)

    def _lend(self, parameters: Parameters, growth: Growth) -> None:
        pages, places = parameters.pages, parameters.places
        if not (1 <= pages <= 1024 and 1 <= places <= 32):
            refuse(BAD_PARAMETERS)
        self._handle = Handle(parameters, growth)
        self._arrays: dict[str, np.ndarray] = {}
        for name in BUFFERS:
            self._arrays[name] = np.zeros(pages if name == "separators" else pages * places, TYPES[name])
        for name in POOL:
            self._arrays[name] = np.zeros(pages * places, TYPES[name.removeprefix("pool_")])
        for name, array in self._arrays.items():
            setattr(self._handle, name, array.ctypes.data)
            setattr(self._handle, name + "_length", array.size)

    # What the file is.

    @property
    def parameters(self) -> Parameters:
        return Parameters.from_buffer_copy(self._handle.parameters)

    @property
    def growth(self) -> Growth:
        """A copy of the growth record."""
        return Growth.from_buffer_copy(self._handle.growth)

    @property
    def addressed(self) -> int:
        """How many pages are addressed. Those above hold overflow only."""
        p, e = self._handle.parameters, self._handle.growth.expansions
        return (p.width + e % p.width) * (p.groups << e // p.width) + self._handle.growth.expanded

    def _seen(self, name: str) -> np.ndarray:
        view = self._arrays[name].view()
        view.flags.writeable = False
        return view if name == "separators" else view.reshape(self._handle.parameters.pages, -1)

    @property
    def separators(self) -> np.ndarray:
        """The separator of each page, for reading."""
        return self._seen("separators")

    @property
    def numbers(self) -> np.ndarray:
        """The star number in each place, a row for each page, 0 in an empty place; for reading."""
        return self._seen("numbers")

    @property
    def words(self) -> np.ndarray:
        """The position word in each place: ra * 2**32 + (dec + 324000000); for reading."""
        return self._seen("words")

    @property
    def owners(self) -> np.ndarray:
        """The owner of the star in each place: 0 for the institute, 1 to 255 for observers; for reading."""
        return self._seen("owners")

    def __repr__(self) -> str:
        p = self._handle.parameters
        return f"<StarFile: {len(self)} stars, {self.addressed} of {p.pages} pages addressed, {p.places} places each>"

    # One star.

    def _star(self, call, number: int, caller: int | None = None, *position: int):
        # ctypes would cut what does not fit, and the call would see another number: 0 and the ends of the types are refused by it instead
        sought = number if 0 <= number < 2**32 else 0
        if caller is None:
            reply = call(self._handle, sought)
        else:
            if position:
                ra, dec = position
                position = ra if 0 <= ra < 2**32 else 2**32 - 1, dec if -(2**31) <= dec < 2**31 else 2**31 - 1
            reply = call(self._handle, _caller(caller), sought, *position)
        if reply.refusal:
            refuse(reply.refusal, reply.page, reply.place, number)
        return reply

    def get(self, number: int, default: object = None):
        """The star's Position, or default if the file does not hold it."""
        reply = self._star(calls.look_up, number)
        return Position(reply.ra, reply.dec) if reply.found else default

    def owner(self, number: int) -> int:
        """The star's owner."""
        reply = self._star(calls.look_up, number)
        if not reply.found:
            refuse(NOT_HELD, star=number)
        return int(self.owners[reply.page, reply.place])

    def enter(self, number: int, ra: int, dec: int, caller: int = 0) -> int:
        """Enters a star and answers its page. The same star with the same position is accepted again."""
        return self._star(calls.enter, number, caller, ra, dec).page

    def change(self, number: int, ra: int, dec: int, caller: int = 0) -> int:
        """Gives a star that is held another position, and answers its page."""
        return self._star(calls.change, number, caller, ra, dec).page

    def remove(self, number: int, caller: int = 0) -> int:
        """Removes a star and answers the page where it stood."""
        return self._star(calls.remove, number, caller).page

    # Arrays of stars, through one call of the library for many.

    def _replay(self, kind: int, caller: int, numbers: np.ndarray, ra: np.ndarray | None = None, dec: np.ndarray | None = None) -> np.ndarray:
        """The same call for each number, one after the other: a row of refusal, page, place, found, ra, dec + 2^31, due and stars each."""
        n = len(numbers)
        kinds, callers = np.full(n, kind, np.uint8), np.full(n, _caller(caller), np.uint8)
        ra = np.zeros(n, np.uint32) if ra is None else ra
        dec = np.zeros(n, np.int32) if dec is None else dec
        answers = np.empty((n, 8), np.uint32)
        lent = ((array.ctypes.data, array.size) for array in (kinds, callers, numbers, ra, dec, answers))
        refuse(calls.replay(self._handle, *lent).refusal)
        return answers

    def get_many(self, numbers: object) -> Found:
        """Looks up an array of numbers. refusals has the refusal's number for each, 0 where it was accepted."""
        numbers = _numbers(numbers)
        # A replay takes (e, x) alone, by which look-ups answer while a growth is open too.
        answers = self._replay(LOOK_UP, 0, numbers)
        refusals, page, _, found, ra, dec = answers[:, :6].T
        return Found(
            found.astype(np.bool_), np.ascontiguousarray(ra), (dec ^ np.uint32(1 << 31)).view(np.int32), page.astype(np.uint16),
            refusals.astype(np.uint8),
        )  # fmt: skip

    def enter_many(self, numbers: object, ra: object, dec: object, caller: int = 0, grow: bool = True) -> np.ndarray:
        """Enters arrays of stars in order, with growth whenever it is due unless grow is False. Answers the refusal's number for each
        star, 0 where it was accepted; it raises nothing."""
        numbers, (ra, dec) = _numbers(numbers), _positions(ra, dec)
        _alike(numbers, ra, dec)
        if not grow or self._handle.growth.open:
            return self._written(ENTER, caller, numbers, ra, dec)
        refusals, at = np.empty(len(numbers), np.uint8), 0
        while at < len(numbers):
            # Growth cannot be due before that many stars exceed the load of the addressed pages: as many as that at once.
            p, reply = self._handle.parameters, calls.due(self._handle)
            until = at + max(1, p.load * p.places * self.addressed // 100 + 1 - reply.stars)
            part = slice(at, until)
            refusals[part] = self._written(ENTER, caller, numbers[part], ra[part], dec[part])
            for full in at + np.flatnonzero(refusals[part] == FULL):
                while refusals[full] == FULL and not calls.grow(self._handle).refusal:
                    refusals[full] = self._written(ENTER, caller, numbers[full : full + 1], ra[full : full + 1], dec[full : full + 1])[0]
            while calls.due(self._handle).due and not calls.grow(self._handle).refusal:
                pass
            at = until
        return refusals

    def change_many(self, numbers: object, ra: object, dec: object, caller: int = 0) -> np.ndarray:
        """Changes arrays of stars, answering as enter_many."""
        numbers, (ra, dec) = _numbers(numbers), _positions(ra, dec)
        _alike(numbers, ra, dec)
        return self._written(CHANGE, caller, numbers, ra, dec)

    def remove_many(self, numbers: object, caller: int = 0) -> np.ndarray:
        """Removes an array of stars, answering as enter_many."""
        return self._written(REMOVE, caller, _numbers(numbers))

    def _written(self, kind: int, caller: int, *arrays: np.ndarray) -> np.ndarray:
        if self._handle.growth.open:
            return np.full(len(arrays[0]), OUT_OF_TURN, np.uint8)
        return self._replay(kind, caller, *(np.ascontiguousarray(array) for array in arrays))[:, 0].astype(np.uint8)

    def stars(self) -> tuple[np.ndarray, np.ndarray, np.ndarray, np.ndarray]:
        """Numbers in rising order, right ascensions, declinations and owners of all stars."""
        held = np.flatnonzero(self._arrays["numbers"])
        held = held[np.argsort(self._arrays["numbers"][held], kind="stable")]
        words = self._arrays["words"][held]
        ra, dec = (words >> np.uint64(32)).astype(np.uint32), (words & np.uint64(0xFFFFFFFF)).astype(np.int64) - DEC_END
        return self._arrays["numbers"][held], ra, dec.astype(np.int32), self._arrays["owners"][held]

    # The file as a mapping.

    def __len__(self) -> int:
        return int(np.count_nonzero(self._arrays["numbers"]))

    def __iter__(self) -> Iterator[int]:
        return iter(self.stars()[0].tolist())

    def __contains__(self, number: object) -> bool:
        return isinstance(number, (int, np.integer)) and 0 < number < 2**31 - 1 and self.get(int(number)) is not None

    def __getitem__(self, number: int) -> Position:
        position = self.get(int(number))
        if position is None:
            refuse(NOT_HELD, star=number)
        return position

    def __eq__(self, other: object) -> bool:
        """Whether both are the same file, byte for byte. Clean files with the same parameters, growth state, stars and owners are."""
        return (
            isinstance(other, StarFile) and self.parameters == other.parameters and self.growth == other.growth
            and all(np.array_equal(self._arrays[name], other._arrays[name]) for name in BUFFERS)
        )  # fmt: skip

    __hash__ = None

    # The file as a whole.

    def due(self) -> bool:
        """Whether growth is due."""
        reply = calls.due(self._handle)
        refuse(reply.refusal)
        return reply.due

    def grow(self) -> int:
        """Addresses one page more and answers it."""
        return self._whole(calls.grow)

    def shrink(self) -> int:
        """Takes the latest growth back and answers the page given back."""
        return self._whole(calls.shrink)

    def check(self) -> None:
        """Compares the whole file with the rule; damage is raised, with its page and place."""
        self._whole(calls.check)

    def mend(self) -> None:
        """Makes the file anew from the stars on its pages; no separator is read. After a power loss between the page stores of an entry,
        change or removal on a clean file, it is exactly the file before the call or the one after it: docs/POWER.md."""
        self._whole(calls.mend)

    def carried(self, **parameters: int) -> "StarFile":
        """A new file with these stars, each of its owner, under the other multiplier. Other parameters may be given; the new file then
        begins with enough pages addressed for the stars, else with this file's growth state. This file is only read."""
        mine = {name: getattr(self._handle.parameters, name) for name, _ in Parameters._fields_}
        wanted = {**mine, **parameters, "multiplier": 48271 if mine["multiplier"] == 16807 else 16807}
        other = StarFile(**wanted, stars=len(self) if parameters else None)
        if not parameters:
            other._handle.growth = Growth(self._handle.growth.expansions, self._handle.growth.expanded)
        reply = calls.carry(self._handle, other._handle)
        refuse(reply.refusal, reply.page, reply.place)
        return other

    # Strict FITS tables, docs/FITS.md.

    def table(self) -> bytes:
        """The stars as a FITS binary table of three columns without names: number, right ascension, declination, in rising number."""
        out = np.zeros(5_760 + 2_880 * -(-len(self) // 240), np.uint8)
        reply = calls.write_table(self._handle, out.ctypes.data, out.size)
        refuse(reply.refusal, reply.page, reply.place)
        return out[: reply.stars].tobytes()

    def read_table(self, data: bytes) -> None:
        """Replaces the file by the stars of such a table, all of owner 0, under its parameters and growth state."""
        given = np.frombuffer(data, np.uint8)
        reply = calls.read_table(self._handle, given.ctypes.data, given.size)
        refuse(reply.refusal, reply.page, reply.place)

    def _whole(self, call) -> int:
        reply = call(self._handle)
        refuse(reply.refusal, reply.page, reply.place)
        return reply.page

    def grow_in_steps(self) -> Iterator[int]:
        """Grows step by step and yields how many steps are done, from 0 to the number of pages. Between steps look-ups answer from the
        file as it was, and calls that write it are refused as out of turn. Left early, the growth is given up: the file is as it was."""
        second = StarFile.__new__(StarFile)
        second._lend(self.parameters, Growth())
        reply = calls.open_growth(self._handle, second._handle)
        refuse(reply.refusal, reply.page, reply.place)
        try:
            yield 0
            for step in range(1, self._handle.parameters.pages + 1):
                reply = calls.step_growth(self._handle, second._handle)
                refuse(reply.refusal, reply.page, reply.place)
                if not self._handle.growth.open:
                    for name in BUFFERS:
                        self._arrays[name], second._arrays[name] = second._arrays[name], self._arrays[name]
                yield step
        finally:
            self._handle.growth.open = self._handle.growth.steps = 0

    def grow_marking(self) -> np.ndarray:
        """Grows, and answers for each page whether the growth of a clean file may have altered it: what a backup has to copy."""
        before, old = self.growth, self._arrays["separators"].copy()
        self.grow()
        marks = np.zeros(self._handle.parameters.pages, np.bool_)
        refuse(calls.mark_changed(self._handle, before, old.ctypes.data, marks.ctypes.data))
        return marks

    def copy(self) -> "StarFile":
        """Another file with the same contents."""
        other = StarFile.__new__(StarFile)
        other._lend(self.parameters, self.growth)
        for name in BUFFERS:
            other._arrays[name][:] = self._arrays[name]
        return other

    # Images, docs/IMAGE.md.

    def image(self) -> bytes:
        """The file's image."""
        buffers = (self._arrays[name].tobytes() for name in ("words", "numbers", "owners", "separators"))
        return images.image(self.parameters, self.growth, *buffers)

    def save(self, path: str | os.PathLike) -> None:
        """Writes the image beside the path and then puts it in its place, so that the path never has half an image."""
        beside = f"{os.fspath(path)}.{os.getpid()}.new"
        try:
            with open(beside, "wb") as out:
                out.write(self.image())
                out.flush()
                os.fsync(out.fileno())
            os.replace(beside, path)
        finally:
            if os.path.exists(beside):
                os.unlink(beside)

    @classmethod
    def from_image(cls, data: bytes, path: object = "image", altered: bool = False, torn: bool = False) -> "StarFile":
        """The file of an image; ImageRefused if it is none, was altered or is torn. Call check() to compare it with the rule. With altered
        an image with a wrong checksum is taken all the same, to be looked into; with torn one whose pages were being written, or that
        has no separators, to be mended. A growth that was open is given up, as its second set is not part of an image."""
        image, (refusal, header) = np.frombuffer(data, np.uint8), images.test(data)
        if refusal == images.BAD_CRC and altered:
            refusal = 0
        if refusal or (header.flags and not torn):
            raise ImageRefused(refusal or images.TORN, path)
        file, at = cls.__new__(cls), images.HEADER
        file._lend(header.parameters, header.growth)
        for name in ("words", "numbers", "owners", "separators"):
            if name == "separators" and header.flags & images.PAGES_ONLY:
                break
            array = file._arrays[name]
            array.view(np.uint8)[:] = image[at : at + array.nbytes]
            at += array.nbytes
        # of all calls due asks for the least: parameters and record
        refuse(calls.due(file._handle).refusal)
        file._handle.growth.open = file._handle.growth.steps = 0
        return file

    @classmethod
    def load(cls, path: str | os.PathLike, altered: bool = False, torn: bool = False) -> "StarFile":
        """Reads an image that save or another host wrote; see from_image."""
        with open(path, "rb") as image:
            return cls.from_image(image.read(), path, altered, torn)
