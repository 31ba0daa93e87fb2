"""The stars of Debian's kstars-data: files of KStars' binary star format, records of 32 bytes behind an index."""
from __future__ import annotations

import struct
import sys
from pathlib import Path
from typing import NamedTuple

import numpy as np

DIRECTORY = Path("/usr/share/kstars")
RECORD = np.dtype(
    [("ra", "<i4"), ("dec", "<i4"), ("motion", "<i4", 2), ("parallax", "<i4"), ("hd", "<i4"), ("magnitude", "<i2"), ("rest", "V6")]
)


class Stars(NamedTuple):
    """HD numbers, positions of J2000 in milliarcseconds, magnitudes in hundredths; the brightest first."""

    hd: np.ndarray
    ra: np.ndarray
    dec: np.ndarray
    magnitude: np.ndarray


def records(path: Path) -> np.ndarray:
    data = path.read_bytes()
    marker, _, fields = struct.unpack_from("<2sBH", data, 124)
    if marker != b"SK" or fields != 11:
        raise ValueError(f"{path} is not of the format known here")
    (trixels,) = struct.unpack_from("<I", data, 129 + 16 * fields)
    # five bytes follow the index: the faintest magnitude, the level of the index, the most stars of an entry
    return np.frombuffer(data, RECORD, offset=129 + 16 * fields + 4 + 12 * trixels + 5)


def hd_stars(directory: Path = DIRECTORY) -> tuple[Stars, int]:
    """The stars with an HD number, each once, and how many records there were."""
    found = np.concatenate([records(directory / name) for name in ("namedstars.dat", "unnamedstars.dat")])
    named = found[found["hd"] > 0]
    # of records with one number the brightest stays, the first of equals
    named = named[np.argsort(named["magnitude"], kind="stable")]
    _, first = np.unique(named["hd"], return_index=True)
    stars = named[np.sort(first)]
    # right ascension in 10^-6 hours, declination in 10^-5 degrees: both are whole milliarcseconds
    hd, ra, dec = (stars[name].astype(np.int64) for name in ("hd", "ra", "dec"))
    return Stars(hd, ra * 54, dec * 36, stars["magnitude"]), len(found)


def main() -> None:
    stars, _ = hd_stars()
    print("HD,RAdeg,DEdeg,Vmag")
    for hd, ra, dec, magnitude in list(zip(*(column.tolist() for column in stars)))[: int(sys.argv[1])]:
        print(f"{hd},{ra / 3_600_000:.7f},{dec / 3_600_000:.7f},{magnitude / 100:.2f}")


if __name__ == "__main__":
    main()
