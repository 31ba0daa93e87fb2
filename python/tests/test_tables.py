"""Catalogues in CSV, astropy and FITS, and the command over them."""
import contextlib
import importlib.util
import io
import os
import tempfile
import unittest

import numpy as np

from heatherplane import StarFile, tables
from heatherplane.command import COMMANDS, main

ASTROPY = importlib.util.find_spec("astropy") is not None
MATPLOTLIB = importlib.util.find_spec("matplotlib") is not None
CSV = """HD,name,RAdeg,DEdeg
48915,Sirius,101.2885350,-16.7131400
172167,Vega,279.2347,38.7837
0,none,1,2
7,north,1,95
x,letters,1,2
8,short
48915,elsewhere,1,1
48915,again,101.2885350,-16.7131400
9,turn,359.99999999,0
10,beyond,360,0
11,nothing,nan,0
"""
REFUSED = [
    (4, 0, "bad number"), (5, 7, "bad position"), (6, None, "bad number"), (7, 8, "bad position"), (8, 48915, "held"),
    (11, 10, "bad position"), (12, 11, "bad position"),
]  # fmt: skip


class Tables(unittest.TestCase):
    def setUp(self):
        place = tempfile.TemporaryDirectory()
        self.addCleanup(place.cleanup)
        self.addCleanup(os.chdir, os.getcwd())
        os.chdir(place.name)
        with open("c.csv", "w") as out:
            out.write(CSV)

    def run_command(self, *words):
        out, err = io.StringIO(), io.StringIO()
        with contextlib.redirect_stdout(out), contextlib.redirect_stderr(err):
            status = main(list(words))
        return status, out.getvalue(), err.getvalue()

    def test_csv(self):
        file = StarFile.sized_for(20)
        entered = tables.enter(file, tables.read_csv("c.csv", ra="RAdeg", dec="DEdeg"))
        self.assertEqual([tuple(row) for row in entered.refused], REFUSED)
        self.assertEqual((entered.accepted, entered.gained), (4, 3))
        self.assertEqual(dict(file), {48915: (364638726, -60167304), 172167: (1005244920, 139621320), 9: (0, 0)})
        with self.assertRaisesRegex(ValueError, "no column"):
            tables.read_csv("c.csv")

    def test_units(self):
        for unit, ra, dec in (("mas", 54_000_000, -3_600_000), ("arcsec", 54_000, -3_600), ("deg", 15, -1), ("hour", 1, -1)):
            with open("u.csv", "w") as out:
                out.write(f"number,ra,dec\n1,{ra},{dec}\n")
            catalogue = tables.read_csv("u.csv", unit=unit)
            self.assertEqual((catalogue.ra[0], catalogue.dec[0]), (54_000_000, -3_600_000), unit)

    @unittest.skipUnless(ASTROPY, "astropy is not installed")
    def test_astropy(self):
        from astropy import units
        from astropy.table import Table

        ra, dec = [1.0, 2.0, 24.5, 3.0] * units.hourangle, [1.0, 2.0, 3.0, 4.0] * units.arcmin
        table = Table({"HIP": [3, 1, 2, 0], "RAJ2000": ra, "DEJ2000": dec})
        file, refused = tables.from_table(table)
        self.assertEqual(dict(file), {1: (108_000_000, 120_000), 3: (54_000_000, 60_000)})
        self.assertEqual([tuple(row) for row in refused], [(3, 2, "bad position"), (4, 0, "bad number")])
        out = tables.to_table(file, "deg")
        self.assertEqual(out["number"].tolist(), [1, 3])
        np.testing.assert_allclose(out["ra"], [30.0, 15.0])
        self.assertEqual(out["ra"].unit, units.deg)
        self.assertAlmostEqual(file[3].skycoord.ra.deg, 15.0)
        with self.assertRaisesRegex(ValueError, "no unit"):
            tables.from_table(Table({"number": [1], "ra": [1.0], "dec": [1.0]}))

    @unittest.skipUnless(ASTROPY, "astropy is not installed")
    def test_fits_there_and_back(self):
        rng, file = np.random.default_rng(3), StarFile.sized_for(3000)
        ra, dec = rng.integers(0, 1_296_000_000, 3000), rng.integers(-324_000_000, 324_000_001, 3000)
        file.enter_many(rng.choice(2**31 - 2, 3000, False) + 1, ra, dec)
        for unit in ("mas", "arcsec", "deg"):
            tables.write_fits(file, "a.fits", unit)
            again = StarFile.sized_for(3000)
            self.assertEqual(tables.enter(again, tables.read_fits("a.fits")).refused, [])
            self.assertEqual(again, file, unit)

    def test_strict_table_mending_and_carrying(self):
        self.run_command("load", "c.csv", "a.image", "--ra", "RAdeg", "--dec", "DEdeg", "--pages", "24")
        self.assertEqual(self.run_command("fits", "--strict", "a.image", "a.fits")[:2], (0, "a.fits: 8640 bytes\n"))
        self.assertEqual(self.run_command("load", "a.fits", "b.image", "--pages", "24")[0], 0)
        self.assertEqual(self.run_command("diff", "a.image", "b.image")[0], 0)
        self.assertEqual(self.run_command("carry", "a.image", "c.image")[:2], (0, "c.image: 3 stars, multiplier 16807\n"))
        self.assertEqual(self.run_command("carry", "c.image", "d.image")[0], 0)
        self.assertEqual(self.run_command("mend", "d.image")[:2], (0, "d.image: mended, 3 stars\n"))
        self.assertEqual(self.run_command("diff", "a.image", "d.image")[0], 0)

    def test_command(self):
        status, out, err = self.run_command("load", "c.csv", "a.image", "--ra", "RAdeg", "--dec", "DEdeg")
        self.assertEqual((status, len(err.splitlines())), (1, 7))
        self.assertIn("3 stars entered, 1 held already, 7 rows refused", out)
        self.assertEqual(self.run_command("look", "a.image", "48915", "5")[:2], (1, "48915 101.2885350 -16.7131400\n5 none\n"))
        self.assertEqual(self.run_command("look", "--mas", "a.image", "48915")[:2], (0, "48915 364638726 -60167304\n"))
        self.assertIn("stars       3", self.run_command("info", "a.image")[1])
        self.assertEqual(self.run_command("check", "a.image")[:2], (0, "a.image: clean, 3 stars\n"))
        self.assertEqual(self.run_command("look", "a.image", "0")[0], 2)
        self.assertEqual(self.run_command("look", "c.csv", "1")[0::2], (2, "heatherplane: c.csv: bad magic\n"))
        self.assertEqual(self.run_command("info", "absent")[0], 2)
        file = StarFile.load("a.image")
        self.assertEqual(self.run_command("diff", "a.image", "a.image")[:2], (0, "the same file, byte for byte\n"))
        file.change(9, 1, 1)
        file.remove(48915)
        file.enter(12, 5, 6)
        file.save("b.image")
        expected = "+ 12 5 6\n- 48915 364638726 -60167304\n~ 9 0 0 -> 1 1\n1 added, 1 gone, 1 moved\n"
        self.assertEqual(self.run_command("diff", "a.image", "b.image")[:2], (1, expected))

    def test_damage(self):
        file = StarFile.sized_for(10)
        page = file.enter(5, 6, 7)
        data = bytearray(file.image())
        at = 80 + 8 * int(np.flatnonzero(file.numbers)[0])
        data[at + 7] ^= 0x80
        with open("d.image", "wb") as out:
            out.write(data)
        status, out, _ = self.run_command("check", "d.image")
        self.assertEqual(status, 1)
        self.assertEqual(out, f"d.image: bad checksum\nd.image: damaged, page {page}, separator or whole page\n")

    @unittest.skipUnless(MATPLOTLIB, "matplotlib is not installed")
    def test_picture(self):
        StarFile.sized_for(10).save("a.image")
        self.assertEqual(self.run_command("picture", "a.image", "a.png")[0], 0)
        with open("a.png", "rb") as picture:
            self.assertEqual(picture.read(8), b"\x89PNG\r\n\x1a\n")

    def test_help_has_an_example_each(self):
        for command, *_ in COMMANDS:
            out = io.StringIO()
            with contextlib.redirect_stdout(out), self.assertRaises(SystemExit):
                main([command.__name__, "--help"])
            self.assertIn(f"example: heatherplane {command.__name__} ", out.getvalue())


if __name__ == "__main__":
    unittest.main()
