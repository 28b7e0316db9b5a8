"""The client and the tester, which are run to their end: where memory runs out they print nothing."""

import itertools
import os
import subprocess

from checks import same, want
from refused import NO_MEMORY, NONE, want_status


class Plain:
    """A program with its words, over files that no run changes."""

    # How many of its last requests for memory are refused one by one: those behind the patterns.
    last = 100

    def __init__(self, name, library, place, words, terminal=False):
        self.name, self.library, self.place, self.words, self.terminal = name, library, place, words, terminal
        self.numbers = itertools.count()
        self.usual = self.run_it(NONE)
        self.requests = self.usual[0].requests
        want(self.requests, f"{name}: the library counts no request of {words[0]}: {self.usual}")

    def run_it(self, refusal):
        """Gives what came of a run, and what it wrote to its terminal, if it has one as its standard error."""
        note = os.path.join(self.place, f"note-{next(self.numbers)}")
        try:
            if not self.terminal:
                return self.library.run(refusal, note, self.words), b""
            controller, terminal = os.openpty()
            try:
                run = self.library.run(refusal, note, self.words, stderr=terminal)
            finally:
                os.close(terminal)
            shown = b"".join(iter(lambda: read(controller), b""))
            os.close(controller)
            return run, shown
        finally:
            os.remove(note)

    def run(self, refusal):
        """Makes a run, and gives what came of it. Where memory runs out nothing is said, and else what is said without a refusal."""
        (run, shown), (usual, advice) = self.run_it(refusal), self.usual
        want_status(run, usual.status)
        same(run.said, b"" if run.status == NO_MEMORY else usual.said, f"said at status {run.status}")
        same(run.errors, b"", "standard error")
        want(shown in (b"", advice), f"at the terminal stands {shown!r}, and not {advice!r}")
        return run

    def again(self):
        return " ".join(map(str, self.words))


def read(terminal):
    """What stands there, and nothing once nobody can write there any more."""
    try:
        return os.read(terminal, 1 << 16)
    except OSError:
        return b""
