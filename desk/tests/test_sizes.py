"""examples/sizes: one text for every size. The sorter sorts, and the butterfly is the transform that its comment says."""
from __future__ import annotations

import random
import unittest

from deltawobble import api

from .support import EXAMPLES


def ran(name: str, rows: list[list[int]]) -> list[list[int]]:
    """What the proved call shows at the output pins, a row a tick."""
    return [list(row[len(rows[0]):]) for row in api.run(str(EXAMPLES / (name + ".dw")), rows).rows]


def all_rows(wide: int) -> list[list[int]]:
    return [[k >> i & 1 for i in range(wide)] for k in range(1 << wide)]


def transform(row: list[int]) -> list[int]:
    """Bit k of the result: the xor of the bits whose place has ones only where k has some."""
    return [sum(bit for j, bit in enumerate(row) if j & ~k == 0) % 2 for k in range(len(row))]


class Sizes(unittest.TestCase):
    def test_the_sorter_sorts_all_inputs(self):
        for wide in (4, 8):
            rows = all_rows(wide)
            self.assertEqual(ran("sizes/bitonic-%d" % wide, rows), [sorted(row) for row in rows], wide)

    def test_the_sorter_is_the_stored_one(self):
        """The same outputs as examples/bitonic-sorter-8, written out without parameters."""
        rows = all_rows(8)
        self.assertEqual(ran("sizes/bitonic-8", rows), ran("bitonic-sorter-8", rows))

    def test_the_butterfly(self):
        rows = all_rows(8)
        self.assertEqual(ran("sizes/butterfly-8", rows), [transform(row) for row in rows])
        rng = random.Random(6)
        wide = [[int(i == k) for i in range(16)] for k in range(16)] + [[rng.randrange(2) for _ in range(16)] for _ in range(1000)]
        once = ran("sizes/butterfly-16", wide)
        self.assertEqual(once, [transform(row) for row in wide])
        self.assertEqual(ran("sizes/butterfly-16", once), wide)


if __name__ == "__main__":
    unittest.main()
