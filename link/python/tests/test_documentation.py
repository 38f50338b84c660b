"""Everything public has a docstring, calls have an example, and every example holds."""

import doctest
import inspect
import sys
import unittest

import tankcurve
from tankcurve._header import CALLS


def load_tests(loader, tests, pattern):
    for name, module in sorted(sys.modules.items()):
        if name.split(".")[0] == tankcurve.__name__:
            tests.addTests(doctest.DocTestSuite(module))
    return tests


class Documentation(unittest.TestCase):
    def test_everything_public_has_a_docstring(self):
        for name in tankcurve.__all__:
            found = getattr(tankcurve, name)
            if inspect.isclass(found) or inspect.isfunction(found):
                with self.subTest(name=name):
                    self.assertTrue((found.__doc__ or "").strip())

    def test_every_call_has_an_example(self):
        for call in CALLS:
            with self.subTest(call=call):
                self.assertIn(">>> ", getattr(tankcurve, call).__doc__)


if __name__ == "__main__":
    unittest.main()
