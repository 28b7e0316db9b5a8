"""An install into an empty root, and what its unit runs there.

    python3 tests/fresh SERVER CLIENT TESTER         makes all checks
    python3 tests/fresh SERVER CLIENT TESTER WORD    makes those whose sentence has the word

A line for each check, and a last one with how many passed and failed. Each has a root of its own, and waits for what has to come and not for seconds.
"""

import sys
from functools import partial

import files
import pages
import service
import units
from root import Root, status_of

CHECKS = [*files.CHECKS, *pages.CHECKS, *units.CHECKS, *service.CHECKS]


def made(programs, check):
    """Makes a check in a root of its own."""
    with Root(programs) as root:
        return check(root)


def main(programs, word):
    return status_of("fresh", [(check.__doc__.strip(), partial(made, programs, check)) for check in CHECKS], word)


if __name__ == "__main__":
    if len(sys.argv) not in (4, 5):
        sys.exit(__doc__)
    sys.exit(main(sys.argv[1:4], "".join(sys.argv[4:])))
