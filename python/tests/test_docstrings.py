"""The documentation of each function names its keywords, with their ranges and units."""

from __future__ import annotations

import inspect
import unittest

import cmr_matrices

RANGES = {
    "lines": "0 to 24 lines",
    "workers": "1 to 64",
    "pivots": "0 to 100",
    "tries": "0 to 1000",
    "seed": "any integer",
    "time_limit": "in seconds, 0 to 2,000,000",
}


class Docstrings(unittest.TestCase):
    def test_keywords_and_ranges(self) -> None:
        found = 0
        for name in cmr_matrices.__all__:
            value = getattr(cmr_matrices, name)
            if inspect.isfunction(value):
                said = " ".join((inspect.getdoc(value) or "").split())
                for keyword in RANGES.keys() & inspect.signature(value).parameters.keys():
                    with self.subTest(function=name, keyword=keyword):
                        self.assertIn(f"`{keyword}`", said)
                        self.assertIn(RANGES[keyword], said)
                        found += 1
        self.assertGreater(found, 29)


if __name__ == "__main__":
    unittest.main()
