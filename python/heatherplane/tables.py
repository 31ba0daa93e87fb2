"""Catalogues: CSV files, astropy tables and FITS tables with named columns."""
from __future__ import annotations

import csv
import os
from collections.abc import Callable
from typing import NamedTuple

import numpy as np

from .refusals import ACCEPTED, BAD_HEADER, BAD_ROWS, NAMES, Refused
from .starfile import RA_END, StarFile

NUMBER_NAMES = ("number", "hd", "hip", "star", "id")
RA_NAMES = ("ra", "raj2000", "ra_icrs", "_ra", "_raj2000", "right_ascension")
DEC_NAMES = ("dec", "de", "dej2000", "de_icrs", "_de", "_dej2000", "declination")
MAS = {"mas": 1, "arcsec": 1000, "deg": 3_600_000, "hour": 54_000_000}
NO_NUMBER = -(2**62)  # stands for what is no number: every call refuses it


class Row(NamedTuple):
    """A row of a catalogue that was refused. line counts the data rows of a table from 1; of a CSV file it is the line of the file."""

    line: int
    number: int | None
    reason: str


class Catalogue(NamedTuple):
    """Columns as whole numbers, positions in milliarcseconds, and the line that each row came from."""

    numbers: np.ndarray
    ra: np.ndarray
    dec: np.ndarray
    lines: np.ndarray


class Entered(NamedTuple):
    """How many rows were accepted, how many stars the file gained by them, and the rows refused."""

    accepted: int
    gained: int
    refused: list[Row]


def to_mas(values: object, unit: str, turn: bool) -> np.ndarray:
    """Angles as whole milliarcseconds, to the nearest. With turn, what rounds up to a full turn is 0. What is no number is out of range."""
    if unit not in MAS:
        raise ValueError(f"the unit is one of {', '.join(MAS)}, not {unit}")
    values = np.asarray(values)
    if values.dtype.kind in "iu" and unit == "mas":
        return values.astype(np.int64)
    angles = np.asarray(values, np.float64)
    usable = np.isfinite(angles) & (np.abs(angles) * MAS[unit] < 2**40)
    mas = np.where(usable, np.rint(np.where(usable, angles, 0) * MAS[unit]), NO_NUMBER).astype(np.int64)
    if turn:
        mas[(mas == RA_END) & (angles * MAS[unit] < RA_END)] = 0
    return mas


def column(names: list[str], given: str | None, usual: tuple[str, ...], what: str) -> str:
    """The name of a column: the given one, or the first usual one, in upper or lower case."""
    by_lower = {name.lower(): name for name in reversed(names)}
    for name in (given,) if given else usual:
        if name in names or name.lower() in by_lower:
            return name if name in names else by_lower[name.lower()]
    raise ValueError(f"no column {given or ' or '.join(usual)} for the {what} among {', '.join(names)}")


def read_strict(path: str | os.PathLike) -> Catalogue | None:
    """The rows of a strict table (docs/FITS.md), read by the proved call; None if the file is none."""
    with open(path, "rb") as source:
        data = source.read()
    rows = max(1, (len(data) - 5_760) // 12)
    file = StarFile(places=32, groups=256, width=4, step=1, pages=1024)
    try:
        file.read_table(data)
    except Refused as refused:
        if refused.number in (BAD_HEADER, BAD_ROWS):
            return None
        raise ValueError(f"{path}: {refused.name}: up to {rows} rows are too many for one file") from refused
    numbers, ra, dec, _ = file.stars()
    return Catalogue(numbers.astype(np.int64), ra.astype(np.int64), dec.astype(np.int64), np.arange(1, len(numbers) + 1))


def _whole(text: str) -> int:
    try:
        number = int(text)
    except ValueError:
        return NO_NUMBER
    return number if abs(number) < 2**62 else NO_NUMBER


def _angle(text: str) -> float:
    try:
        return float(text)
    except ValueError:
        return float("nan")


def read_csv(
    path: str | os.PathLike, number: str | None = None, ra: str | None = None, dec: str | None = None, unit: str = "deg",
) -> Catalogue:  # fmt: skip
    """A CSV file whose first line names the columns. unit is that of both angles: mas, arcsec, deg or hour (right ascension alone)."""
    numbers, ras, decs, lines = [], [], [], []
    with open(path, newline="") as source:
        rows = csv.reader(source)
        names = [name.strip() for name in next(rows, [])]
        wanted = [
            names.index(column(names, given, usual, what))
            for given, usual, what in ((number, NUMBER_NAMES, "number"), (ra, RA_NAMES, "right ascension"), (dec, DEC_NAMES, "declination"))
        ]
        for row in rows:
            if row:
                texts = [row[i] if i < len(row) else "" for i in wanted]
                numbers.append(_whole(texts[0]))
                ras.append(_angle(texts[1]))
                decs.append(_angle(texts[2]))
                lines.append(rows.line_num)
    dec_unit = "deg" if unit == "hour" else unit
    return Catalogue(np.array(numbers, np.int64), to_mas(ras, unit, True), to_mas(decs, dec_unit, False), np.array(lines, np.int64))


def read_table(table, number: str | None = None, ra: str | None = None, dec: str | None = None, unit: str | None = None) -> Catalogue:
    """An astropy table. A column's own unit serves, and unit where it has none; a unit is never guessed."""
    number = column(table.colnames, number, NUMBER_NAMES, "number")
    ra, dec = column(table.colnames, ra, RA_NAMES, "right ascension"), column(table.colnames, dec, DEC_NAMES, "declination")
    numbers = np.ma.filled(table[number], 0) if np.ma.isMaskedArray(table[number]) else np.asarray(table[number])
    if numbers.dtype.kind not in "iu":
        numbers = np.array([_whole(str(value)) for value in numbers], np.int64)
    return Catalogue(
        numbers.astype(np.int64), _column_mas(table[ra], ra, unit, True), _column_mas(table[dec], dec, unit, False),
        np.arange(1, len(table) + 1),
    )  # fmt: skip


def _column_mas(values, name: str, unit: str | None, turn: bool) -> np.ndarray:
    from astropy import units

    if values.unit is None and unit is None:
        raise ValueError(f"column {name} has no unit: name one")
    own = values.unit if values.unit is not None else {"hour": units.hourangle}.get(unit) or units.Unit(unit)
    plain = np.ma.filled(np.ma.asarray(values).astype(float), np.nan) if np.ma.isMaskedArray(values) else np.asarray(values)
    if own == units.mas:
        return to_mas(plain, "mas", turn)
    return to_mas((plain * own).to_value(units.deg), "deg", turn)


def enter(
    file: StarFile, catalogue: Catalogue, caller: int = 0, grow: bool = True, progress: Callable[[int], object] | None = None,
) -> Entered:  # fmt: skip
    """Enters a catalogue's rows in order. progress is told the rows done, after every thousand."""
    before, refusals = len(file), np.empty(len(catalogue.numbers), np.uint8)
    for at in range(0, len(refusals), 1000):
        rows = slice(at, at + 1000)
        refusals[rows] = file.enter_many(catalogue.numbers[rows], catalogue.ra[rows], catalogue.dec[rows], caller, grow)
        if progress:
            progress(min(at + 1000, len(refusals)))
    refused = []
    for i in np.flatnonzero(refusals).tolist():
        number = int(catalogue.numbers[i])
        refused.append(Row(int(catalogue.lines[i]), None if number == NO_NUMBER else number, NAMES[refusals[i]]))
    return Entered(int(np.count_nonzero(refusals == ACCEPTED)), len(file) - before, refused)


def from_table(table, file: StarFile | None = None, **columns: str | None) -> tuple[StarFile, list[Row]]:
    """The stars of an astropy table in a file, by default a new one sized for them, and the rows that were refused, each with its line."""
    catalogue = read_table(table, **columns)
    file = StarFile.sized_for(len(catalogue.numbers)) if file is None else file
    return file, enter(file, catalogue).refused


def to_table(file: StarFile, unit: str = "mas"):
    """All stars as an astropy table, by rising number: number, ra, dec and owner, the angles in the unit given."""
    from astropy import units
    from astropy.table import Table

    numbers, ra, dec, owners = file.stars()
    table = Table({"number": numbers.astype(np.int32), "ra": ra.astype(np.int32), "dec": dec, "owner": owners})
    for name in ("ra", "dec"):
        table[name].unit = units.mas
        if unit != "mas":
            table[name] = table[name].to(units.Unit(unit))
    return table


def read_fits(path: str | os.PathLike, **columns: str | None) -> Catalogue:
    """The first table of a FITS file, with named columns."""
    from astropy.table import Table

    return read_table(Table.read(path, format="fits"), **columns)


def write_fits(file: StarFile, path: str | os.PathLike, unit: str = "mas") -> int:
    """Writes all stars as a FITS table with named columns, and answers their number. The owners go with them."""
    table = to_table(file, unit)
    table.write(path, format="fits", overwrite=True)
    return len(table)


def difference(old: StarFile, new: StarFile) -> tuple[np.ndarray, np.ndarray, np.ndarray]:
    """The numbers of the stars that new has and old has not, those it has no more, and those with another position."""
    (a, ra_a, dec_a, _), (b, ra_b, dec_b, _) = old.stars(), new.stars()
    both, at_a, at_b = np.intersect1d(a, b, assume_unique=True, return_indices=True)
    moved = both[(ra_a[at_a] != ra_b[at_b]) | (dec_a[at_a] != dec_b[at_b])]
    return np.setdiff1d(b, a, assume_unique=True), np.setdiff1d(a, b, assume_unique=True), moved
