"""What becomes of the programs where memory runs out, at each request for memory that they make.

    python3 tests/memory SERVER CLIENT TESTER [WORD]

makes the worked runs whose name has the word, each so often that each of its requests for memory is refused once, first that one alone, and then that one
and all behind it. A line for each tells how many were refused, how many runs ended for want of memory, and how many went on as if nothing had been, and the
last line how many of these passed and failed. A run has to end with the status for want of memory, or with the one that it has without a refusal, within
five minutes and by no signal, and to have said what it says else, or a beginning of that.

By default each of the first and of the last requests is refused, and each thirteenth of those between, which are mostly of patterns that are built; with
EACH=1 in the environment each one, with AT=57 the 57th alone, with AT=57-90 these, and with AT=57-90/3 each third of these.
"""

import collections
import os
import shlex
import sys
import tempfile
import time
from concurrent.futures import ThreadPoolExecutor
from functools import partial

from refused import NO_MEMORY, TESTS, Library, Refusal
from plain import Plain
from folder import LOGGED, live_server
from server import worked_runs

from checks import Failed, Skipped, status_of

EXAMPLE = os.path.join(os.path.dirname(TESTS), "examples/one-filter")

# How many of the first requests are refused one by one, and which of those between them and the last ones.
FIRST, STEP = 100, 13

# So many more requests than a run without a fault a run may make: more commands are tried, or less comes at once.
MORE = 1_000

# How often it is told how far a worked run is, in seconds.
MINUTE = 60

# So many runs are made side by side: most of each is waiting.
SIDE_BY_SIDE = 8


def numbers(scene):
    """Which requests are refused."""
    if "AT" in os.environ:
        numbers, _, step = os.environ["AT"].partition("/")
        first, _, last = numbers.partition("-")
        return range(int(first), int(last or first) + 1, int(step or 1))
    each = 1 if os.environ.get("EACH") else STEP
    return [at for at in range(1, scene.requests + 1) if at <= FIRST or at > scene.requests - scene.last or at % each == 0]


def outcome(scene, refusal):
    """Makes a run, and gives what came of it, and what was wrong with it."""
    try:
        return scene.run(refusal), None
    except Failed as why:
        return None, str(why)


def each(make, refuses_all):
    """Refuses each request of a worked run, and gives in words what came of it. How far it is, and each fault, is told on standard error too."""
    scene, count, faults = make(), collections.Counter(), []
    told = [time.monotonic()]

    def add(refusal, run, why):
        if time.monotonic() > told[-1] + MINUTE:
            told.append(time.monotonic())
            print(f"memory: {scene.name}: {refusal.at} of {scene.requests}", file=sys.stderr, flush=True)
        if why:
            faults.append(f"{refusal.at}: {why}")
            print(f"memory: {scene.name}: {faults[-1]}", file=sys.stderr, flush=True)
        else:
            count["refused"] += run.came
            count["ended"] += run.status == NO_MEMORY
            count["went on"] += run.came and run.status != NO_MEMORY

    refusals = [Refusal(number, refuses_all) for number in numbers(scene)]
    with ThreadPoolExecutor(SIDE_BY_SIDE) as pool:
        for refusal, (run, why) in zip(refusals, pool.map(partial(outcome, scene), refusals)):
            add(refusal, run, why)
    # A run may make some requests more than the first one: until one does not come so far.
    more = 0
    while "AT" not in os.environ and more < MORE:
        more += 1
        refusal = Refusal(scene.requests + more, refuses_all)
        run, why = outcome(scene, refusal)
        if run and not run.came:
            break
        add(refusal, run, why)
    came = f"{count['refused']} refused of {scene.requests} requests, {count['ended']} ended for want of memory, {count['went on']} went on"
    if faults:
        again = f"AT=N tests/memory.sh {shlex.quote(scene.name)}"
        raise Failed(f"{came}, {len(faults)} failed ({again}, of {scene.again()}):\n  " + "\n  ".join(faults[:10]))
    return came


def checks_of(server, client, tester, library, place):
    """The worked runs by their names: each is made when it is to be tried."""
    socket = os.path.join(place, "live/run/fail2ban.sock")
    log = [os.path.join(EXAMPLE, "mail.log"), os.path.join(EXAMPLE, "filter.d/smtpd.conf")]
    line = f"1700000000 fail from {LOGGED}"
    plain = [
        ("the client asks for the jails", False, [client, "-s", socket, "status"]),
        ("the client asks who is banned", False, [client, "-s", socket, "status", "--all"]),
        ("the client is refused at a terminal", True, [client, "-s", socket, "sttus"]),
        ("the client reads a time", False, [client, "--str2sec", "1h 30m"]),
        ("the tester reports on a filter", False, [tester, *log]),
        ("the tester shows all lines", False, [tester, "-v", "--print-all-ignored", "--print-all-missed", *log]),
        ("the tester shows failures", False, [tester, "-o", "row", *log]),
        ("the tester refuses a pattern at a terminal", True, [tester, "-d", "Epoch", line, "^ fail (?=from)<ADDR>$"]),
        ("the tester refuses a filter at a terminal", True, [tester, line, os.path.join(place, "filter.d/bad.conf")]),
    ]
    for name, terminal, words in plain:
        yield name, partial(Plain, name, library, place, words, terminal)
    yield from worked_runs(server, library, place)


def main(server, client, tester, word):
    with tempfile.TemporaryDirectory(prefix="fail2ban-memory-") as place:
        try:
            library = Library(place)
        except Skipped as why:
            print(f"memory: skipped: {why}")
            return 0
        os.mkdir(os.path.join(place, "filter.d"))
        with open(os.path.join(place, "filter.d/bad.conf"), "w", encoding="utf-8") as file:
            file.write("[Definition]\nfailregex = ^ fail from <ADDR>$\nmaxlines = many\n")
        checks = [
            (f"{name}, {how}", partial(each, make, refuses_all))
            for name, make in checks_of(server, client, tester, library, place)
            for how, refuses_all in [("one request refused", False), ("and all behind it", True)]
        ]
        with live_server(server, place):
            return status_of("memory", checks, word)


if __name__ == "__main__":
    if len(sys.argv) not in (4, 5):
        sys.exit(__doc__)
    sys.exit(main(*map(os.path.abspath, sys.argv[1:4]), "".join(sys.argv[4:])))
