"""What no clause can say of the real outside: the programs over real files, pipes, clocks and signals.

    python3 tests/real SERVER CLIENT TESTER         makes all checks; TESTER may be empty
    python3 tests/real SERVER CLIENT TESTER WORD    makes those whose sentence has the word

A line for each check, one with how many were skipped for each reason, and a last one with how many passed and failed. Each check has a folder
of its own, and waits for what has to come and not for seconds, so a busy machine makes it slow and not wrong.
"""

import os
import sys
import tempfile
from functools import partial

import client
import clients
import clock
import commands
import configuration
import ends
import journal
import jumps
import logs
import output
import reload
import tester
from room import Room, status_of

# So many checks are made side by side: most of each is waiting.
SIDE_BY_SIDE = 6

CHECKS = [
    *ends.CHECKS,
    *clock.CHECKS,
    *configuration.CHECKS,
    *logs.CHECKS,
    *output.CHECKS,
    *commands.CHECKS,
    *journal.CHECKS,
    *jumps.CHECKS,
    *client.CHECKS,
    *clients.CHECKS,
    *reload.CHECKS,
    *tester.CHECKS,
]


def made(programs, check):
    """Makes a check in a folder of its own."""
    with tempfile.TemporaryDirectory(prefix="fail2ban-real-") as place:
        return check(Room(*programs, place))


def main(programs, word):
    checks = [(check.__doc__.strip(), partial(made, programs, check)) for check in CHECKS]
    return status_of("real", checks, word, SIDE_BY_SIDE)


if __name__ == "__main__":
    if len(sys.argv) not in (4, 5):
        sys.exit(__doc__)
    sys.exit(main([os.path.abspath(path) if path else "" for path in sys.argv[1:4]], "".join(sys.argv[4:])))
