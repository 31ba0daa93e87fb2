"""A table that astropy writes from lines `number ra dec`, in the form that our reader takes: table.py ROWS TABLE

astropy writes names and comments of its own, and adds the names again when a table is built without them; so the comments are emptied
before it is written, and the names are deleted from the header of the file.
"""
import sys

import numpy
from astropy.io import fits

rows = numpy.loadtxt(sys.argv[1], dtype=">i4", ndmin=2)
names = ("number", "ra", "dec")
columns = [fits.Column(name=name, format="1J", array=rows[:, index]) for index, name in enumerate(names)]
units = fits.HDUList([fits.PrimaryHDU(), fits.BinTableHDU.from_columns(columns)])
for unit in units:
    for card in unit.header.cards:
        card.comment = ""
units.writeto(sys.argv[2], overwrite=True)
with fits.open(sys.argv[2], mode="update") as units:
    for column in range(len(names)):
        del units[1].header[f"TTYPE{column + 1}"]
