"""The counting of comparisons, for every test: its last line is 'N passed, 0 failed'."""

import sys

MOST_TOLD = 20


class Tally:
    def __init__(self):
        self.passed, self.failed = 0, 0

    def same(self, what, got, wanted):
        if got == wanted:
            self.passed += 1
            return
        self.failed += 1
        if self.failed <= MOST_TOLD:
            print(f'{what}: got {got!r}, wanted {wanted!r}'[:600])

    def holds(self, what, condition, shown=''):
        self.same((what, shown), bool(condition), True)

    def finish(self):
        """The last line, and the exit status."""
        print(f'{self.passed} passed, {self.failed} failed')
        sys.exit(self.failed != 0)
