"""The actions of conf/ over a firewall of files, or over the real one of a network's namespace of its own.

    python3 tests/actions SERVER CLIENT           makes all checks, with stand-ins for nft, ipset, iptables, ip and sendmail
    python3 tests/actions SERVER CLIENT WORD      makes those whose name has the word
    python3 tests/actions --real SERVER CLIENT    makes those of firewalls with the real programs: tests/firewall.sh runs it

A line for each check, and a last one with how many passed and failed. Each check has a folder of its own, and waits for what has to come and not for
seconds, so a busy machine makes it slow and not wrong.
"""

import os
import sys
import tempfile
from functools import partial

import commands
import rules
import runs
import texts
from room import Room, status_of

# So many checks are made side by side: most of each is waiting. There is one real firewall.
SIDE_BY_SIDE = 6


def made(programs, check, is_real):
    """Makes a check in a folder of its own."""
    with tempfile.TemporaryDirectory(prefix="fail2ban-actions-") as place:
        room = Room(*programs, place, is_real)
        try:
            return check(room)
        finally:
            room.kill()


def main(programs, word, is_real):
    all_checks = [*texts.checks(is_real), *commands.checks(is_real), *rules.checks(is_real), *runs.checks(is_real)]
    checks = [(name, partial(made, programs, check, is_real)) for name, check in all_checks]
    return status_of("actions", checks, word, 1 if is_real else SIDE_BY_SIDE)


if __name__ == "__main__":
    words = sys.argv[1:]
    is_real = words[:1] == ["--real"]
    words = words[is_real:]
    if len(words) not in (2, 3):
        sys.exit(__doc__)
    sys.exit(main([os.path.abspath(word) for word in words[:2]], "".join(words[2:]), is_real))
