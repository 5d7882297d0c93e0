"""The counting of cases, for tests that compare much in each: a case counts once."""

import os
import sys
from contextlib import contextmanager

sys.path.append(os.path.join(os.path.dirname(os.path.dirname(os.path.abspath(__file__))), 'model'))

from tally import MOST_TOLD, Tally  # noqa: E402


class Cases(Tally):
    @contextmanager
    def case(self, what):
        """What is compared within is one case; it fails where one comparison does, or where there is none."""
        passed, failed = self.passed, self.failed
        yield
        good = self.failed == failed and self.passed > passed
        self.passed, self.failed = passed + good, failed + (not good)
        if not good and self.failed <= MOST_TOLD:
            print(f'this case failed: {what!r}'[:600])

    def finish(self, calls=None):
        """The calls, where they are more than the cases; then the last line, and the exit status."""
        if calls is not None:
            print(f'calls: {calls}')
        super().finish()
