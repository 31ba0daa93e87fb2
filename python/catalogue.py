"""The HD stars of kstars-data through a star file's life, with a figure for each part; status 1 if anything is not as it should be."""
from __future__ import annotations

import ctypes
import ctypes.util
import subprocess
import sys
import time
from pathlib import Path

import numpy as np
from kstars import hd_stars

from heatherplane import Refused, StarFile
from heatherplane.refusals import FULL
from heatherplane.tables import from_table, write_fits

PAGES, LEFT, REMOVED = 1016, 5000, 5000


def timed(call, *arguments):
    # processor time, so that other work on the machine does not count
    begun = time.process_time()
    answer = call(*arguments)
    return answer, time.process_time() - begun


def need(truth: object, what: str) -> None:
    if not truth:
        sys.exit(f"FAILED: {what}")


def grow_to(file: StarFile, pages: int) -> int:
    growths = 0
    while file.addressed < pages:
        file.grow()
        growths += 1
    return growths


def shrink_all(file: StarFile) -> int:
    """Shrinks to (0, 0), or until the stars do not fit; answers the pages given back."""
    given = 0
    try:
        while file.growth.expansions or file.growth.expanded:
            file.shrink()
            given += 1
    except Refused as refused:
        need(refused.number == FULL, f"a shrink is {refused}")
    return given


def by_cfitsio(path: Path, rows: int) -> list[np.ndarray] | None:
    """The first three columns as cfitsio reads them, or None where it is not installed."""
    name = ctypes.util.find_library("cfitsio")
    if name is None:
        return None
    library, handle, status = ctypes.CDLL(name), ctypes.c_void_p(), ctypes.c_int(0)
    library.ffopen(ctypes.byref(handle), str(path).encode() + b"[1]", 0, ctypes.byref(status))
    need(status.value == 0, f"cfitsio opens the table: {status.value}")
    columns = [np.zeros(rows, np.int32) for _ in range(3)]
    TINT = 31
    for i, column in enumerate(columns):
        library.ffgcv(
            handle, TINT, i + 1, ctypes.c_longlong(1), ctypes.c_longlong(1), ctypes.c_longlong(rows), None,
            ctypes.c_void_p(column.ctypes.data), None, ctypes.byref(status),
        )  # fmt: skip
    library.ffclos(handle, ctypes.byref(status))
    need(status.value == 0, f"cfitsio reads the columns: {status.value}")
    return columns


def tables(file: StarFile, path: Path) -> None:
    rows = write_fits(file, path)
    from astropy.table import Table

    table = Table.read(path)
    again, refused = from_table(table, StarFile(*(getattr(file.parameters, name) for name, _ in file.parameters._fields_), stars=rows))
    grow_to(again, PAGES)
    need(not refused and again == file, "the table read by astropy gives the same file")
    print(f"FITS table of {rows:,} rows, {path.stat().st_size:,} bytes: read by astropy, entered and grown, it gives the same bytes")
    columns = by_cfitsio(path, rows)
    if columns is None:
        print("NOT RUN: cfitsio is not installed (apt install libcfitsio-dev)")
    else:
        need(all(np.array_equal(a, b) for a, b in zip(columns, file.stars())), "cfitsio reads the same stars")
        print("read by cfitsio: the same numbers and positions")
    try:
        verified = subprocess.run(["fitsverify", "-q", path], capture_output=True, text=True)
        need(verified.returncode == 0, verified.stdout)
        print("fitsverify: " + verified.stdout.split("\n")[0].replace(str(path), path.name))
    except FileNotFoundError:
        print("NOT RUN: fitsverify is not installed (apt install fitsverify)")


def strict_tables(file: StarFile, path: Path) -> None:
    """The strict table through the proved calls, and astropy and cfitsio on it."""
    table, writing = timed(file.table)
    path.write_bytes(table)
    again = StarFile()
    again._handle.growth = file.growth
    _, reading = timed(again.read_table, table)
    need(again == file and again.table() == table, "read in again it is the file, and that file's table the same bytes")
    times = f"written in {1000 * writing:.1f} ms, read in {1000 * reading:.1f}"
    print(f"strict table of {len(table):,} bytes, {times}: the same file, the same bytes")
    from astropy.io import fits

    with fits.open(path) as units:
        for column, name in enumerate(("number", "ra", "dec")):
            units[1].columns[column].name = name
        read = [np.asarray(units[1].data[name]) for name in ("number", "ra", "dec")]
    need(all(np.array_equal(a, b) for a, b in zip(read, file.stars())), "astropy reads the same stars")
    columns = by_cfitsio(path, len(file))
    need(columns is None or all(np.array_equal(a, b) for a, b in zip(columns, file.stars())), "cfitsio reads the same stars")
    print("read by astropy, its columns named first" + ("" if columns is None else ", and by cfitsio") + ": the same numbers and positions")


def main(out: Path) -> None:
    stars, records = hd_stars()
    print(f"{records:,} records of kstars-data, {len(stars.hd):,} stars with an HD number once duplicates are out")
    file = StarFile()
    p = file.parameters
    fit = p.load * p.places * PAGES // 100
    print(
        f"a file has {p.pages * p.places:,} places at most: the {fit:,} brightest, {p.load} % of {PAGES:,} pages, go into one, "
        f"to magnitude {stars.magnitude[fit - 1] / 100:.2f}"
    )

    refusals, seconds = timed(file.enter_many, stars.hd[:fit], stars.ra[:fit], stars.dec[:fit])
    need(not refusals.any(), "every star is accepted")
    print(f"entered one by one, growing when due, from 16 to {file.addressed:,} pages: {seconds:.2f} s")
    grow_to(file, PAGES)
    _, seconds = timed(file.check)
    print(f"grown to {file.addressed:,} pages; check: clean, {1000 * seconds:.1f} ms")

    found, seconds = timed(file.get_many, stars.hd)
    need(found.found[:fit].all() and not found.found[fit:].any() and not found.refusals.any(), "the stars entered are found, no others")
    need(np.array_equal(found.ra[:fit], stars.ra[:fit]) and np.array_equal(found.dec[:fit], stars.dec[:fit]), "with their positions")
    each = 1e6 * seconds / len(stars.hd)
    print(f"all {len(stars.hd):,} looked up: {fit:,} found with their positions, the others not; {each:.2f} µs each")

    file.save(out / "bright.image")
    need(StarFile.load(out / "bright.image") == file, "the image read back is the file")
    print(f"image of {(out / 'bright.image').stat().st_size:,} bytes, read back: the same")

    before = file.image()
    some = np.random.default_rng(1984).choice(fit, REMOVED, replace=False)
    refusals, away = timed(file.remove_many, stars.hd[some])
    need(not refusals.any() and len(file) == fit - REMOVED, "the stars are removed")
    refusals, back = timed(file.enter_many, stars.hd[some], stars.ra[some], stars.dec[some], 0, False)
    need(not refusals.any() and file.image() == before, "entered again they give the same bytes")
    print(f"{REMOVED:,} removed ({away:.2f} s) and entered again ({back:.2f} s): the same bytes")

    given, seconds = timed(shrink_all, file)
    print(f"with all stars {given:,} pages can be given back, to {file.addressed:,} ({seconds:.2f} s)")
    grow_to(file, PAGES)
    need(file.image() == before, "grown back it has the same bytes")
    few = file.copy()
    need(not few.remove_many(stars.hd[LEFT:fit]).any(), "the fainter stars are removed")
    small = few.image()
    given, down = timed(shrink_all, few)
    need(few.addressed == p.width * p.groups, "the file shrinks to (0, 0)")
    grown, up = timed(grow_to, few, PAGES)
    need(few.image() == small, "and grows back to the same bytes")
    print(
        f"with the {LEFT:,} brightest: {given:,} shrinks to (0, 0) ({down:.2f} s) "
        f"and {grown:,} growths back ({up:.2f} s): the same bytes"
    )

    faint = StarFile.sized_for(len(stars.hd) - fit)
    refusals, seconds = timed(faint.enter_many, stars.hd[fit:], stars.ra[fit:], stars.dec[fit:])
    need(not refusals.any(), "the fainter stars are accepted")
    faint.check()
    faint.save(out / "faint.image")
    pages = f"{faint.addressed:,} of {faint.parameters.pages:,} pages"
    print(f"the other {len(faint):,} in a file sized for them, {pages}: {seconds:.2f} s; clean")
    tables(file, out / "bright.fits")
    strict_tables(file, out / "strict.fits")


main(Path(sys.argv[1]))
