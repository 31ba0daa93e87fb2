"""The pictures of docs/pictures/."""
import re
import sys
from pathlib import Path

import numpy as np
from kstars import hd_stars

from heatherplane import StarFile
from heatherplane.pictures import access_picture, filter_picture, growth_picture, page_picture


def report_rows(path: Path) -> list[tuple[int, float, float, float, float]]:
    """From each row of the report's table: step, the report's insertion and expansion, and the library's."""
    rows = []
    for line in path.read_text().splitlines():
        if re.fullmatch(r" *\d+ \|[ .\d]+\|[ .\d]+\|[ .\d]+", line):
            step, report, library, _ = (part.split() for part in line.split("|"))
            rows.append((int(step[0]), float(report[0]), float(report[1]), float(library[3]), float(library[4])))
    return rows


def main(out: Path) -> None:
    stars, _ = hd_stars()
    file = StarFile()
    touched = growth_picture(file, stars.hd[:26009], stars.ra[:26009], stars.dec[:26009], out / "growth.png")
    print(f"growth.png: {len(touched)} growths")
    # the file of docs/GUIDE.md
    part = StarFile.sized_for(6400)
    part.enter_many(stars.hd[:6400], stars.ra[:6400], stars.dec[:6400])
    page_picture(part, out / "pages.png")
    print("pages.png:", part)
    order = np.random.default_rng(1970).permutation(len(stars.hd))
    share = filter_picture(stars.hd[order], part.parameters.multiplier, out / "filter.png")
    print(f"filter.png: {share[-1]:.4f} with 256 reports")
    rows = report_rows(out.parent / "REPORT.md")
    access_picture(rows, out / "accesses.png")
    print(f"accesses.png: {len(rows)} steps")


main(Path(sys.argv[1]))
