"""The package against a plain dictionary, and each refusal."""
import os
import tempfile
import unittest

import numpy as np

import heatherplane
from heatherplane import ImageRefused, NotHeld, Position, Refused, StarFile
from heatherplane import refusals as r
from heatherplane.homes import homes


def some(count, seed=1):
    rng = np.random.default_rng(seed)
    numbers = rng.choice(2**31 - 2, count, replace=False) + 1
    return numbers, rng.integers(0, 1_296_000_000, count), rng.integers(-324_000_000, 324_000_001, count)


class OneStar(unittest.TestCase):
    def setUp(self):
        self.file = StarFile(places=4, groups=2, width=2, step=1, pages=16)

    def refused(self, number, call, *arguments, **named):
        with self.assertRaises(Refused) as caught:
            call(*arguments, **named)
        self.assertEqual((caught.exception.number, caught.exception.name), (number, r.NAMES[number]))
        return caught.exception

    def test_life_of_a_star(self):
        page = self.file.enter(7, 10, -5)
        self.assertEqual(self.file.enter(7, 10, -5), page)
        self.assertEqual(self.file.get(7), Position(10, -5))
        self.assertEqual(self.file.change(7, 11, 5), page)
        self.assertEqual(self.file[7], (11, 5))
        self.assertEqual(self.file.remove(7), page)
        self.assertIsNone(self.file.get(7))
        self.assertEqual(self.file.get(7, "none"), "none")

    def test_each_refusal(self):
        enter = self.file.enter
        enter(7, 10, -5, caller=3)
        self.refused(r.BAD_PARAMETERS, StarFile, places=33)
        self.refused(r.BAD_PARAMETERS, StarFile, groups=0)
        self.refused(r.BAD_PARAMETERS, StarFile, multiplier=5)
        self.refused(r.BAD_PARAMETERS, StarFile, pages=-1)
        for number in (0, 2**31 - 1, 2**32 + 7, -7):
            self.refused(r.BAD_NUMBER, enter, number, 0, 0)
            self.refused(r.BAD_NUMBER, self.file.get, number)
        for position in ((1_296_000_000, 0), (2**32, 0), (-1, 0), (0, 324_000_001), (0, -324_000_001), (0, 2**32)):
            self.refused(r.BAD_POSITION, enter, 8, *position)
        self.refused(r.HELD, enter, 7, 10, -4)
        self.refused(r.NOT_HELD, self.file.change, 8, 0, 0)
        self.refused(r.NOT_HELD, self.file.remove, 8)
        self.refused(r.NOT_OWNER, self.file.remove, 7, caller=4)
        self.refused(r.UNGROWN, self.file.shrink)
        while self.file.addressed < 16:
            self.file.grow()
        self.refused(r.FULL, self.file.grow)
        with self.assertRaises(ValueError):
            enter(8, 0, 0, caller=256)
        self.assertEqual(self.file.owner(7), 3)

    def test_damage_is_told_with_its_page(self):
        page = self.file.enter(7, 10, -5)
        place = int(np.flatnonzero(self.file.numbers[page] == 7)[0])
        self.file._arrays["words"][page * 4 + place] = 2**63
        for call in (self.file.check, lambda: self.file[7]):
            self.assertEqual(self.refused(r.DAMAGED, call).page, page)

    def test_mapping(self):
        for number in (9, 3, 5):
            self.file.enter(number, number, -number)
        self.assertEqual(list(self.file), [3, 5, 9])
        self.assertEqual(dict(self.file), {n: (n, -n) for n in (3, 5, 9)})
        self.assertEqual(len(self.file), 3)
        self.assertIn(np.uint32(9), self.file)
        for absent in (4, 0, -1, 2**40, "9"):
            self.assertNotIn(absent, self.file)
        for kind in (NotHeld, KeyError):
            with self.assertRaises(kind):
                self.file[4]

    def test_buffers_are_for_reading(self):
        with self.assertRaises(ValueError):
            self.file.numbers[0, 0] = 1


class Arrays(unittest.TestCase):
    def test_as_one_by_one(self):
        numbers, ra, dec = some(2000)
        many = StarFile(places=8, pages=512)
        one = StarFile(places=8, pages=512)
        self.assertFalse(many.enter_many(numbers, ra, dec).any())
        for star in zip(numbers.tolist(), ra.tolist(), dec.tolist()):
            one.enter(*star)
            while one.due():
                one.grow()
        self.assertEqual(many, one)
        many.check()
        found = many.get_many(np.concatenate([numbers, [1, 2, 3]]))
        self.assertTrue(found.found[:-3].all() and not found.found[-3:].any() and not found.refusals.any())
        np.testing.assert_array_equal(found.ra[:-3], ra)
        np.testing.assert_array_equal(found.dec[:-3], dec)

    def test_history_independence(self):
        numbers, ra, dec = some(1500)
        file, other, order = StarFile(stars=1500, pages=64), StarFile(stars=1500, pages=64), np.random.default_rng(2).permutation(1500)
        file.enter_many(numbers, ra, dec, grow=False)
        other.enter_many(numbers[order], ra[order], dec[order], grow=False)
        self.assertEqual(file.image(), other.image())
        self.assertFalse(file.change_many(numbers[:10], ra[:10], np.zeros(10, int)).any())
        self.assertFalse(file.remove_many(numbers[:500]).any())
        self.assertNotEqual(file, other)
        self.assertFalse(file.enter_many(numbers[:500], ra[:500], dec[:500]).any())
        self.assertEqual(file, other)

    def test_refusals_by_item(self):
        file = StarFile(pages=32)
        answers = file.enter_many([5, 0, 5, 2**40, 6, 7], [1, 1, 2, 1, -1, 3], [0, 0, 0, 0, 0, 2**40])
        self.assertEqual(answers.tolist(), [0, r.BAD_NUMBER, r.HELD, r.BAD_NUMBER, r.BAD_POSITION, r.BAD_POSITION])
        self.assertEqual(file.get_many([5, -5]).refusals.tolist(), [0, r.BAD_NUMBER])
        self.assertEqual(file.remove_many([5, 5]).tolist(), [0, r.NOT_HELD])
        self.assertEqual(len(file.enter_many([], [], [])), 0)
        with self.assertRaises(ValueError):
            file.enter_many([1, 2], [1], [1])
        with self.assertRaises(TypeError):
            file.enter_many([1.5], [1], [1])

    def test_full(self):
        numbers, ra, dec = some(300)
        file = StarFile(places=4, groups=4, width=1, step=1, pages=16)
        answers = file.enter_many(numbers, ra, dec)
        self.assertEqual(set(answers.tolist()), {0, r.FULL})
        self.assertEqual(len(file), np.count_nonzero(answers == 0))
        self.assertEqual(file.addressed, 16)
        file.check()


class Whole(unittest.TestCase):
    def setUp(self):
        self.stars = some(400)
        self.file = StarFile(places=8, pages=80)
        self.file.enter_many(*self.stars)

    def test_growth_and_shrink(self):
        before = self.file.copy()
        page = self.file.grow()
        self.assertEqual(page, before.addressed)
        self.assertNotEqual(self.file, before)
        self.assertEqual(self.file.shrink(), page)
        self.assertEqual(self.file, before)

    def test_growth_in_steps(self):
        grown, number = self.file.copy(), int(self.stars[0][0])
        grown.grow()
        for step in self.file.grow_in_steps():
            self.assertIn(number, self.file)
            if step < 80:
                with self.assertRaises(Refused) as caught:
                    self.file.remove(number)
                self.assertEqual(caught.exception.number, r.OUT_OF_TURN)
        self.assertEqual(step, 80)
        self.assertEqual(self.file, grown)
        self.file.remove(number)

    def test_growth_given_up(self):
        before = self.file.copy()
        for step in self.file.grow_in_steps():
            if step == 3:
                break
        del step
        import gc

        gc.collect()
        self.assertEqual(self.file, before)

    def test_marks(self):
        before = self.file.copy()
        marks = self.file.grow_marking()
        same = (self.file.numbers == before.numbers).all(axis=1) & (self.file.separators == before.separators)
        self.assertTrue(same[~marks].all())
        self.assertTrue(marks[before.addressed])

    def test_homes(self):
        p, g = self.file.parameters, self.file.growth
        empty = StarFile(places=8, pages=80)
        while empty.growth != g:
            empty.grow()
        for number, home in zip(self.stars[0][:100].tolist(), homes(p, g, self.stars[0][:100]).tolist()):
            self.assertEqual(empty.enter(number, 0, 0), home)
            empty.remove(number)

    def test_images(self):
        with tempfile.TemporaryDirectory() as place:
            path = os.path.join(place, "a.image")
            self.file.save(path)
            self.assertEqual(StarFile.load(path), self.file)
            self.assertEqual(os.listdir(place), ["a.image"])
            data = bytearray(self.file.image())
            data[500] ^= 1
            for altered, name in ((data, "bad checksum"), (data[:-1], "bad length"), (b"", "bad length"), (b"x" * 99, "bad magic")):
                with self.assertRaises(ImageRefused) as caught:
                    StarFile.from_image(bytes(altered))
                self.assertEqual(caught.exception.name, name)
            self.assertEqual(len(StarFile.from_image(bytes(data), altered=True)), 400)
            for at, value in ((24, 0), (48, 2**31), (24, 2**32 - 1)):
                data = bytearray(self.file.image())
                data[at : at + 4] = value.to_bytes(4, "little")
                with self.assertRaises(Refused) as caught:
                    StarFile.from_image(bytes(data), altered=True)
                self.assertEqual(caught.exception.number, r.BAD_PARAMETERS)

    def test_image_of_an_open_growth(self):
        before = self.file.copy()
        for step in self.file.grow_in_steps():
            if step == 2:
                self.assertEqual(StarFile.from_image(self.file.image()), before)

    def test_against_a_dictionary(self):
        rng, book, file = np.random.default_rng(5), {}, StarFile(places=4, groups=2, width=2, step=1, pages=64)
        for kind, number, ra, dec in zip(*(rng.integers(*bounds, 4000) for bounds in ((0, 5), (1, 120), (0, 99), (-99, 99)))):
            number, ra, dec = int(number), int(ra), int(dec)
            try:
                if kind < 2:
                    file.enter(number, ra, dec)
                    self.assertTrue(number not in book or book[number] == (ra, dec))
                    book[number] = (ra, dec)
                elif kind == 2:
                    file.change(number, ra, dec)
                    self.assertIn(number, book)
                    book[number] = (ra, dec)
                elif kind == 3:
                    file.remove(number)
                    del book[number]
                elif file.due():
                    file.grow()
            except Refused as refused:
                self.assertEqual(refused.number, r.HELD if kind < 2 else r.NOT_HELD)
                self.assertEqual(number in book, kind < 2)
        self.assertEqual(dict(file), book)
        file.check()

    def test_version(self):
        self.assertRegex(heatherplane.version(), r"^\d+\.\d+\.\d+$")


class AfterALoss(unittest.TestCase):
    def setUp(self):
        self.numbers, self.ra, self.dec = some(600, 7)
        self.file = StarFile.sized_for(800, places=8)
        self.assertFalse(self.file.enter_many(self.numbers, self.ra, self.dec, caller=3).any())

    def test_mending_needs_no_separator(self):
        lost = self.file.copy()
        lost._arrays["separators"][:] = 1
        lost.mend()
        self.assertTrue(lost == self.file)
        twice = self.file.copy()
        held = np.flatnonzero(twice._arrays["numbers"])
        twice._arrays["words"][held[0]] = 0
        empty = np.flatnonzero(twice._arrays["numbers"] == 0)[0]
        for name in ("numbers", "words", "owners"):
            twice._arrays[name][empty] = self.file._arrays[name][held[0]]
        with self.assertRaises(Refused) as caught:
            twice.mend()
        self.assertEqual(caught.exception.number, r.BAD_CONTENTS)

    def test_table_there_and_back(self):
        institute = StarFile.sized_for(800, places=8)
        self.assertFalse(institute.enter_many(self.numbers, self.ra, self.dec).any())
        table = institute.table()
        self.assertEqual(len(table), 5_760 + 2_880 * 3)
        self.assertEqual(self.file.table(), table)
        back = self.file.copy()
        back.read_table(table)
        self.assertTrue(back == institute)
        with self.assertRaises(Refused) as caught:
            back.read_table(table[:-1])
        self.assertEqual(caught.exception.number, r.BAD_HEADER)
        with self.assertRaises(Refused) as caught:
            back.read_table(table[:-1] + b"1")
        self.assertEqual(caught.exception.number, r.BAD_ROWS)

    def test_carried_there_and_back(self):
        other = self.file.carried()
        self.assertEqual(other.parameters.multiplier, 16807)
        other.check()
        self.assertEqual(dict(other), dict(self.file))
        self.assertEqual(other.owner(int(self.numbers[0])), 3)
        self.assertTrue(other.carried() == self.file)
        wider = self.file.carried(places=32, pages=64)
        wider.check()
        self.assertEqual(len(wider), 600)


if __name__ == "__main__":
    unittest.main()
