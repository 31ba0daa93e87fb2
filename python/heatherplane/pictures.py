"""Pictures of star files, by matplotlib."""
from __future__ import annotations

import os

import numpy as np

from .homes import homes, scrambled
from .starfile import StarFile

OWN, OVERFLOW, LINE, GREY = "#4477aa", "#ee8866", "#222222", "#999999"


def figure(width: float, height: float, rows: int = 1, **options):
    import matplotlib

    matplotlib.use("Agg")
    from matplotlib import pyplot

    drawn, axes = pyplot.subplots(rows, 1, figsize=(width, height), squeeze=False, constrained_layout=True, **options)
    for (axis,) in axes:
        axis.spines[["top", "right"]].set_visible(False)
    return drawn, [axis for (axis,) in axes]


def store(drawn, path: str | os.PathLike) -> None:
    from matplotlib import pyplot

    # without the maker's name and version, so that the same file gives the same picture
    drawn.savefig(path, dpi=100, format="png", metadata={"Software": None})
    pyplot.close(drawn)


def overflow(file: StarFile) -> np.ndarray:
    """For each page how many of its stars are at home on a lower one."""
    page, place = np.nonzero(file.numbers)
    away = homes(file.parameters, file.growth, file.numbers[page, place]) != page
    return np.bincount(page[away], minlength=file.parameters.pages)


def page_picture(file: StarFile, path: str | os.PathLike) -> None:
    """Stars by page, those at home on it and those that came from lower pages, above the separators."""
    p, top = file.parameters, 2**file.parameters.bits - 1
    held, away = np.count_nonzero(file.numbers, axis=1), overflow(file)
    pages = np.arange(p.pages)
    drawn, (fill, cut) = figure(10, 5, 2, sharex=True, gridspec_kw={"height_ratios": [3, 2]})
    fill.bar(pages, held - away, width=1.0, color=OWN, label="at home on the page")
    fill.bar(pages, away, width=1.0, bottom=held - away, color=OVERFLOW, label="overflow from lower pages")
    fill.set(ylabel="stars", ylim=(0, p.places * 1.02), xlim=(-0.5, p.pages - 0.5))
    used = held[: file.addressed].sum() / (file.addressed * p.places)
    title = f"{held.sum():,} stars; {file.addressed:,} of {p.pages:,} pages addressed, {used:.0%} of their {p.places} places each used"
    fill.set_title(title, loc="left")
    cut.plot(pages, file.separators, ".", markersize=3, color=LINE)
    full = np.count_nonzero(file.separators < top)
    cut.set(ylabel="separator", xlabel="page", ylim=(0, top * 1.04))
    cut.set_title(f"{full:,} pages have overflowed: separator below {top}", loc="left", fontsize="medium")
    for axis in (fill, cut):
        axis.axvline(file.addressed - 0.5, color=GREY, linestyle="--", label="highest address")
    fill.legend(loc="lower left", framealpha=0.9)
    store(drawn, path)


def growth_picture(file: StarFile, numbers: np.ndarray, ra: np.ndarray, dec: np.ndarray, path: str | os.PathLike) -> np.ndarray:
    """Enters the stars, growing when due, and draws how many pages each growth may have altered; it answers these numbers."""
    sizes, touched, at = [], [], 0
    while at < len(numbers):
        # growth cannot be due before the load of the addressed pages is exceeded
        room = file.parameters.load * file.parameters.places * file.addressed // 100 - len(file)
        file.enter_many(numbers[at : at + max(1, room)], ra[at : at + max(1, room)], dec[at : at + max(1, room)], grow=False)
        at += max(1, room)
        while file.due() and file.addressed < file.parameters.pages - 8:
            marks = file.grow_marking()
            sizes.append(file.addressed)
            touched.append(int(marks.sum()))
    drawn, (axis,) = figure(10, 3.6)
    axis.plot(sizes, touched, ".", markersize=4, color=OWN, label="one growth")
    span = min(50, len(touched))
    axis.plot(sizes[span - 1 :], np.convolve(touched, np.ones(span) / span, "valid"), color=OVERFLOW, label=f"mean of the last {span}")
    axis.set(xlabel="pages addressed after the growth", ylabel="pages it may alter", ylim=(0, None))
    axis.set_title(f"{len(touched):,} growths; {np.mean(touched):.1f} pages each in the mean, {max(touched)} at most", loc="left")
    axis.legend(loc="lower right", ncol=2)
    store(drawn, path)
    return np.array(touched)


def access_picture(rows: list[tuple[int, float, float, float, float]], path: str | os.PathLike) -> None:
    """Accesses for each star entered, by the step: step, then insertion and expansion of the report and of the library."""
    drawn, (axis,) = figure(8, 3.6)
    at, table = np.arange(len(rows)), np.array(rows)
    for offset, column, name, alpha in ((-0.2, 1, "the report", 0.5), (0.2, 3, "the library", 1.0)):
        axis.bar(at + offset, table[:, column], 0.36, color=OWN, alpha=alpha, label=f"{name}: entry")
        axis.bar(at + offset, table[:, column + 1], 0.36, bottom=table[:, column], color=OVERFLOW, alpha=alpha, label=f"{name}: growth")
    axis.set(xlabel="step of a sweep", ylabel="accesses for a star", ylim=(0, 6.5))
    axis.set_xticks(at, [str(row[0]) for row in rows])
    axis.set_title("Pages read and written for each star entered, beside the report's Table 1", loc="left")
    axis.legend(loc="upper center", ncol=2, frameon=False)
    store(drawn, path)


def filter_picture(numbers: np.ndarray, multiplier: int, path: str | os.PathLike) -> np.ndarray:
    """How often the tray's filter, 2,048 bits with X1, X2 and X3 of each waiting number set (document 02 (xi)), says yes of a star that no
    report names: up to 256 reports on the first numbers, asked for all numbers behind them. Answers the share after each report."""
    bits = np.stack([scrambled(multiplier, power, numbers) % 2048 for power in (1, 2, 3)], axis=1)
    waiting, others = bits[:256], bits[256:]
    share, field = [], np.zeros(2048, bool)
    for report in waiting:
        field[report] = True
        share.append(field[others].all(axis=1).mean())
    count = np.arange(1, 257)
    drawn, (axis,) = figure(8, 3.6)
    axis.plot(count, 100 * np.array(share), color=OWN, label=f"asked for {len(others):,} other stars")
    axis.plot(count, 100 * (1 - (1 - 1 / 2048) ** (3 * count)) ** 3, "--", color=OVERFLOW, label="three random bits each")
    axis.set(xlabel="reports waiting", ylabel="false positives, per cent", xlim=(0, 256), ylim=(0, None))
    axis.set_title(f"The tray's filter: {100 * share[-1]:.1f} % false positives when the tray is full", loc="left")
    axis.legend(loc="upper left", frameon=False)
    store(drawn, path)
    return np.array(share)
