"""Programs to which a request for memory is refused, by a library that is loaded before the C library."""

import collections
import os
import re
import shutil
import subprocess
import sys

TESTS = os.path.dirname(os.path.dirname(os.path.abspath(__file__)))
sys.path += [TESTS, os.path.join(TESTS, "soak")]

from checks import Failed, Skipped, want

# The status of each program where memory runs out.
NO_MEMORY = 71

# How many seconds a run may take on a busy machine, until it counts as one that hangs.
LONGEST = 300

# Which request for memory is refused, counted from 1 behind the begin of main (none where it is 0), and whether each one behind it is too.
Refusal = collections.namedtuple("Refusal", "at all")
NONE = Refusal(0, False)

# What a run came to: its status, what it said, whether the request came that had to be refused, and how many came in all, if it got so far as to tell.
Run = collections.namedtuple("Run", "status said errors came requests")


class Library:
    """The library, which is made anew by the machine's C compiler."""

    def __init__(self, place):
        self.path = os.path.join(place, "refuse.so")
        compiler = shutil.which("cc") or shutil.which("gcc") or shutil.which("clang")
        if not compiler:
            raise Skipped("there is no C compiler")
        source = os.path.join(os.path.dirname(os.path.abspath(__file__)), "refuse.c")
        words = [compiler, "-shared", "-fPIC", "-O1", "-fno-omit-frame-pointer", "-o", self.path, source]
        made = subprocess.run(words, capture_output=True, check=False)
        if made.returncode:
            raise Skipped(f"the C compiler made no library: {made.stderr[:200]!r}")
        note = os.path.join(place, "probe")
        subprocess.run(["true"], env=self.environment(note, NONE), check=False)
        if noted(note).requests is None:
            raise Skipped("no library is loaded before the C library here")

    def environment(self, note, refusal):
        """The environment of a program that is refused this, and that notes in that file what came of it."""
        more = {"LD_PRELOAD": self.path, "REFUSE_NOTE": note, "REFUSE_AT": str(refusal.at)}
        return {**os.environ, **more, **({"REFUSE_ALL": "yes"} if refusal.all else {})}

    def run(self, refusal, note, words, **how):
        """Runs a program to its end."""
        pipes = {"stdin": subprocess.DEVNULL, "stdout": subprocess.PIPE, "stderr": subprocess.PIPE, **how}
        try:
            ended = subprocess.run(words, env=self.environment(note, refusal), timeout=LONGEST, check=False, **pipes)
        except subprocess.TimeoutExpired as late:
            raise Failed(f"hangs: it did not end within {LONGEST} s") from late
        return Run(ended.returncode, ended.stdout, ended.stderr or b"", *noted(note))


Noted = collections.namedtuple("Noted", "came requests")


def noted(path):
    """What the library noted."""
    with open(path, encoding="utf-8") as file:
        text = file.read()
    requests = re.search(r"^requests (\d+)$", text, re.MULTILINE)
    return Noted("refused" in text, int(requests[1]) if requests else None)


def want_status(run, usual):
    """Wants the status of a program that ran out of memory, or, as also where nothing was refused, the one that it has else."""
    wanted = [NO_MEMORY, usual] if run.came else [usual]
    want(run.status in wanted, f"status {run.status} and not {' or '.join(map(str, wanted))}, behind {run.said[-300:]!r} {run.errors[-1500:]!r}")
