"""The command heatherplane."""
from __future__ import annotations

import argparse
import os
import sys

import numpy as np

from . import tables
from .library import version
from .refusals import ImageRefused, Refused
from .starfile import StarFile

PARAMETERS = {
    "places": "b, places of a page: 1 to 32 (32)",
    "groups": "N, first groups: 1 to 256 (8)",
    "width": "n0, first pages of a group: 1 to 4 (2)",
    "step": "s, step of a sweep: 1 to groups (5)",
    "bits": "k, bits of a separator: 1 to 8 (8)",
    "load": "A, load in per cent above which growth is due: 1 to 99 (80)",
    "pages": "M, pages at most: up to 1024 (as the rows need)",
    "multiplier": "16807 or 48271 (48271)",
}


def describe(file: StarFile) -> str:
    p, g = file.parameters, file.growth
    lines = [
        f"stars       {len(file)}",
        f"pages       {file.addressed} addressed of {p.pages}, {p.places} places each",
        "parameters  " + " ".join(f"{letter}={getattr(p, name)}" for letter, name in zip(("b", "N", "n0", "s", "k", "A", "M"), PARAMETERS))
        + f" multiplier={p.multiplier}",
        f"growth      e={g.expansions} x={g.expanded}",
        f"growth due  {'yes' if file.due() else 'no'}",
        f"overflowed  {np.count_nonzero(file.separators < 2**p.bits - 1)} pages",
        f"owners      {len(np.unique(file.owners[file.numbers != 0]))}",
    ]  # fmt: skip
    return "\n".join(lines)


def read_catalogue(arguments: argparse.Namespace) -> tables.Catalogue:
    columns = {name: getattr(arguments, name) for name in ("number", "ra", "dec", "unit")}
    with open(arguments.catalogue, "rb") as source:
        fits = source.read(6) == b"SIMPLE"
    strict = tables.read_strict(arguments.catalogue) if fits else None
    if strict is not None:
        return strict
    if fits:
        return tables.read_fits(arguments.catalogue, **columns)
    return tables.read_csv(arguments.catalogue, **{**columns, "unit": columns["unit"] or "deg"})


def load(arguments: argparse.Namespace) -> int:
    catalogue = read_catalogue(arguments)
    count = len(catalogue.numbers)
    given = {name: getattr(arguments, name) for name in PARAMETERS if getattr(arguments, name) is not None}
    if os.path.exists(arguments.image):
        if given:
            raise ValueError(f"{arguments.image} has its parameters already")
        file = StarFile.load(arguments.image)
        file.check()
    else:
        file = StarFile.sized_for(count, **given) if "pages" not in given else StarFile(**given)

    def progress(done: int) -> None:
        bar = "#" * (40 * done // max(1, count))
        print(f"\r[{bar:40}] {done} of {count}", end="\n" if done == count else "", file=sys.stderr, flush=True)

    entered = tables.enter(file, catalogue, progress=progress if sys.stderr.isatty() else None)
    for row in entered.refused[: arguments.told]:
        print(f"line {row.line}: star {'?' if row.number is None else row.number}: {row.reason}", file=sys.stderr)
    if len(entered.refused) > arguments.told:
        print(f"and {len(entered.refused) - arguments.told} more rows", file=sys.stderr)
    file.save(arguments.image)
    print(f"{entered.gained} stars entered, {entered.accepted - entered.gained} held already, {len(entered.refused)} rows refused")
    print(f"{arguments.image}: {len(file)} stars, {file.addressed} of {file.parameters.pages} pages addressed")
    return 1 if entered.refused else 0


def look(arguments: argparse.Namespace) -> int:
    file, missing = StarFile.load(arguments.image), 0
    for number in arguments.numbers:
        position = file.get(number)
        if position is None:
            print(f"{number} none")
            missing = 1
        elif arguments.mas:
            print(number, position.ra, position.dec)
        else:
            print("{} {:.7f} {:+.7f}".format(number, *position.degrees))
    return missing


def info(arguments: argparse.Namespace) -> int:
    print(describe(StarFile.load(arguments.image)))
    return 0


def check(arguments: argparse.Namespace) -> int:
    status = 0
    try:
        file = StarFile.load(arguments.image)
    except ImageRefused as refused:
        file = StarFile.load(arguments.image, altered=True)
        print(refused)
        status = 1
    try:
        file.check()
    except Refused as refused:
        where = "separator or whole page" if refused.place == file.parameters.places else f"place {refused.place}"
        print(f"{arguments.image}: {refused.name}, page {refused.page}, {where}")
        return 1
    print(f"{arguments.image}: {'clean by the rule' if status else 'clean'}, {len(file)} stars")
    return status


def mend(arguments: argparse.Namespace) -> int:
    file = StarFile.load(arguments.image, torn=True)
    file.mend()
    file.save(arguments.image)
    print(f"{arguments.image}: mended, {len(file)} stars")
    return 0


def carry(arguments: argparse.Namespace) -> int:
    file = StarFile.load(arguments.image).carried()
    file.save(arguments.out)
    print(f"{arguments.out}: {len(file)} stars, multiplier {file.parameters.multiplier}")
    return 0


def fits(arguments: argparse.Namespace) -> int:
    if arguments.strict:
        table = StarFile.load(arguments.image).table()
        with open(arguments.out, "wb") as out:
            out.write(table)
        print(f"{arguments.out}: {len(table)} bytes")
        return 0
    count = tables.write_fits(StarFile.load(arguments.image), arguments.out, arguments.unit)
    print(f"{arguments.out}: {count} rows")
    return 0


def picture(arguments: argparse.Namespace) -> int:
    from .pictures import page_picture

    page_picture(StarFile.load(arguments.image), arguments.out)
    print(arguments.out)
    return 0


def diff(arguments: argparse.Namespace) -> int:
    old, new = StarFile.load(arguments.old), StarFile.load(arguments.new)
    if old == new:
        print("the same file, byte for byte")
        return 0
    added, gone, moved = tables.difference(old, new)
    for sign, numbers in (("+", added), ("-", gone)):
        for number in numbers.tolist():
            print(sign, number, *(new if sign == "+" else old)[number])
    for number in moved.tolist():
        print("~", number, *old[number], "->", *new[number])
    print(f"{len(added)} added, {len(gone)} gone, {len(moved)} moved")
    if not (len(added) or len(gone) or len(moved)):
        print("the same stars: parameters, growth state, owners or damage differ")
    return 1


COMMANDS = (
    (load, "enters the stars of a CSV or FITS file into an image, which is made unless it exists; grows when that is due",
     "heatherplane load bright.csv bright.image --number HD --ra RAdeg --dec DEdeg"),
    (look, "tells positions, in degrees; status 1 if a star is not held", "heatherplane look bright.image 48915 172167"),
    (info, "tells parameters, growth state and stars", "heatherplane info bright.image"),
    (check, "compares the whole file with the rule; status 1 and the page if it is damaged", "heatherplane check bright.image"),
    (mend, "makes an image anew from its pages, as after a power loss: the file before the last entry, change or removal or the one after "
     "it", "heatherplane mend bright.image"),
    (carry, "writes the image of the same stars under the other multiplier", "heatherplane carry bright.image bright-1993.image"),
    (fits, "writes a FITS table with the columns number, ra, dec and owner, or the strict table without names",
     "heatherplane fits bright.image bright.fits --unit deg"),
    (picture, "draws stars, overflow and separators by page", "heatherplane picture bright.image bright.png"),
    (diff, "tells stars added, gone and moved, in milliarcseconds. Clean files of the same parameters, growth state, stars and owners are "
     "equal byte for byte, however they came about; status 1 if they differ", "heatherplane diff monday.image tuesday.image"),
)  # fmt: skip


def parser() -> argparse.ArgumentParser:
    top = argparse.ArgumentParser("heatherplane", description="Star files: catalogues in, checked images out.")
    top.add_argument("--version", action="version", version=version())
    below = top.add_subparsers(required=True, metavar="COMMAND")
    made = {}
    for command, text, example in COMMANDS:
        name = command.__name__
        made[name] = below.add_parser(name, help=text, description=text + ".", epilog="example: " + example)
        made[name].set_defaults(command=command)
    made["load"].add_argument("catalogue", help="CSV whose first line names the columns, or FITS")
    made["load"].add_argument("image")
    for name, what in (("number", "star number"), ("ra", "right ascension"), ("dec", "declination")):
        made["load"].add_argument("--" + name, metavar="COLUMN", help=f"column of the {what}")
    made["load"].add_argument("--unit", choices=list(tables.MAS), help="of both angles where the table names none; CSV: deg unless given")
    made["load"].add_argument("--told", type=int, default=20, metavar="N", help="refused rows told one by one (20)")
    for name in PARAMETERS:
        made["load"].add_argument("--" + name, type=int, metavar="N", help=PARAMETERS[name])
    for name in ("look", "info", "check", "mend", "carry", "fits", "picture"):
        made[name].add_argument("image")
    made["look"].add_argument("numbers", type=int, nargs="+", metavar="NUMBER")
    made["look"].add_argument("--mas", action="store_true", help="milliarcseconds instead of degrees")
    made["carry"].add_argument("out")
    made["fits"].add_argument("out")
    made["fits"].add_argument("--strict", action="store_true", help="three columns without names, in milliarcseconds (docs/FITS.md)")
    made["fits"].add_argument("--unit", choices=("mas", "arcsec", "deg"), default="mas")
    made["picture"].add_argument("out")
    made["diff"].add_argument("old")
    made["diff"].add_argument("new")
    return top


def main(words: list[str] | None = None) -> int:
    arguments = parser().parse_args(words)
    try:
        return arguments.command(arguments)
    except (Refused, ImageRefused, ValueError, OSError, ImportError) as wrong:
        print(f"heatherplane: {wrong}", file=sys.stderr)
        return 2
