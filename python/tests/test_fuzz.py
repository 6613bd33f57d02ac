"""Answers that a server changes, at random but the same each time: `tests/python fuzz` tries more."""
import unittest

import fuzz


class Fuzzed(unittest.TestCase):
    def right(self, count, least, *words, **more):
        for alone in False, True:
            read, wrong = fuzz.run(count // 2, 1, *words, alone=alone, **more)
            self.assertEqual(wrong, [])
            self.assertGreater(read, least * count // 2)

    def test_heads(self):
        """4,000 heads that are changed in up to three places, with a forged answer after each."""
        self.right(4000, 0.7, ['mutated'])

    def test_ways(self):
        """Each of the ways, and by chance one after another."""
        for way in fuzz.WAYS:
            with self.subTest(way):
                self.right(40, -1 if way == fuzz.SILENCE else 0.2, [way])
        self.right(400, 0.5, [way for way in fuzz.WAYS if way != fuzz.SILENCE])
