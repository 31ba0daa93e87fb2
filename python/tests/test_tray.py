"""Trays of reports, against a list and a dictionary."""
import unittest

import numpy as np

from heatherplane import Position, Refused, StarFile, Tray
from heatherplane import refusals as r


def hash_bits(number, multiplier):
    x, bits = number, set()
    for _ in range(3):
        x = x * multiplier % (2**31 - 1)
        bits.add(x % 2048)
    return bits


class Trays(unittest.TestCase):
    def setUp(self):
        self.file = StarFile(places=4, groups=2, width=2, step=1, pages=16)
        self.tray = Tray(self.file)

    def refused(self, number, call, *arguments):
        with self.assertRaises(Refused) as caught:
            call(*arguments)
        self.assertEqual(caught.exception.number, number)

    def test_latest_report_answers(self):
        self.file.enter(7, 10, -5)
        self.assertEqual(self.tray.get(7), (10, -5))
        self.tray.add(7, 11, 5)
        self.assertEqual(self.tray.get(7), Position(11, 5))
        self.tray.remove(7)
        self.assertIsNone(self.tray.get(7))
        self.tray.add(7, 12, 6, owner=3)
        self.assertEqual(self.tray.get(7), (12, 6))
        self.assertEqual(self.file[7], (10, -5))
        self.assertEqual(self.tray.reports.tolist(), [(7, 11, 5, 0, 0), (7, 0, 0, 0, 1), (7, 12, 6, 3, 0)])

    def test_refusals(self):
        for number in (0, 2**31 - 1, 2**32 + 7, -7):
            self.refused(r.BAD_NUMBER, self.tray.add, number, 0, 0)
            self.refused(r.BAD_NUMBER, self.tray.remove, number)
            self.refused(r.BAD_NUMBER, self.tray.get, number)
        for position in ((1_296_000_000, 0), (2**32, 0), (-1, 0), (0, 324_000_001), (0, 2**32)):
            self.refused(r.BAD_POSITION, self.tray.add, 7, *position)
        self.assertRaises(ValueError, self.tray.add, 7, 0, 0, 256)
        self.assertEqual((len(self.tray), self.tray.bits()), (0, 0))
        for number in range(1, 257):
            self.tray.add(number, number, 0)
        before = self.tray.filter.copy()
        self.refused(r.TRAY_FULL, self.tray.add, 300, 0, 0)
        self.assertEqual(len(self.tray), 256)
        self.assertTrue(np.array_equal(before, self.tray.filter))

    def test_filter_has_the_bits_of_the_reports(self):
        expected = set()
        for number in (1, 2, 48915, 2_147_483_646):
            self.tray.add(number, 0, 0)
            expected |= hash_bits(number, 48271)
            self.assertEqual(self.tray.bits(), len(expected))
        words = [int(word) for word in self.tray.filter]
        self.assertEqual({64 * i + j for i, word in enumerate(words) for j in range(64) if word >> j & 1}, expected)

    def test_filing_is_the_calls_of_the_reports(self):
        self.file.enter(7, 10, -5)
        other = self.file.copy()
        self.tray.add(7, 11, 5)
        self.tray.add(8, 12, 6, owner=3)
        self.tray.remove(9)
        self.tray.remove(7)
        other.change(7, 11, 5)
        other.enter(8, 12, 6, caller=3)
        other.remove(7)
        self.assertEqual(self.tray.file_reports(), (4, None))
        self.assertEqual(dict(self.file.items()), dict(other.items()))
        self.assertEqual((len(self.tray), self.tray.bits(), self.tray.file_reports()), (0, 0, (0, None)))

    def test_filing_stops_at_a_report_of_another_owner(self):
        self.file.enter(7, 10, -5)
        self.tray.add(8, 1, 2)
        self.tray.add(7, 11, 5, owner=3)
        self.tray.add(9, 3, 4)
        for filed in (1, 0):
            stopped = self.tray.file_reports()
            self.assertEqual((stopped.filed, stopped.refusal.number, stopped.refusal.star), (filed, r.NOT_OWNER, 7))
            self.assertEqual(self.tray.reports["number"].tolist(), [7, 9])
            self.assertEqual(self.tray.bits(), len(hash_bits(7, 48271) | hash_bits(9, 48271)))
        self.assertEqual(dict(self.file.items()), {7: (10, -5), 8: (1, 2)})


if __name__ == "__main__":
    unittest.main()
