"""Has a program and Python's re make the findings of the same lines of sshd on one core, and prints what each of them took.

    findings.py PROGRAM
"""

import os
import random
import re
import sys
import tempfile
import time

from dates import FORMS, run

LINES = 300_000
LINE_LENGTH = 110

# What the host tag of a pattern stands for.
HEX = r"[0-9A-Fa-f]{1,4}"
FEW = rf"(?:{HEX}(?::{HEX}){{0,6}})?"
IP4 = r"(?:::[fF]{4}:)?(?P<f2b4>[0-9]{1,3}(?:\.[0-9]{1,3}){3})"
IP6 = rf"\[?(?P<f2b6>{FEW}::{FEW}|{HEX}(?::{HEX}){{7}})\]?"
NAME = r"(?P<f2bn>[A-Za-z0-9_](?:[A-Za-z0-9._-]*[A-Za-z0-9_])?)"
HOST = f"(?:{IP4}|{IP6}|{NAME})"

PREFIX = r"^\s*\S+ sshd(?:-session)?\[[0-9]+\]: (?P<f2bc>.+)$"
FAILURES = [
    r"^Failed \S+ for (?:invalid user )?(?:.*) from " + HOST + r" port [0-9]+(?: ssh2)?$",
    r"^Invalid user (?:.*) from " + HOST + r"(?: port [0-9]+)?$",
    r"^Connection closed by authenticating user (?:.*) " + HOST + r" port [0-9]+ \[preauth\]$",
]

# How many of a hundred lines are of each kind, and what stands before and behind the user's name.
KINDS = [
    (40, "Failed password for ", " from {host} port {port} ssh2"),
    (20, "Invalid user ", " from {host} port {port}"),
    (20, "Connection closed by authenticating user ", " {host} port {port} [preauth]"),
    (20, "Accepted password for ", " from {host} port {port} ssh2"),
]


def lines():
    """Lines of one length with the line feed, each with a time of 2024-03-01, and the user's name as long as is left for it."""
    chance = random.Random(1)
    kinds = [kind for count, *kind in KINDS for _ in range(count)]
    for number in range(LINES):
        at = time.gmtime(1_709_251_200 + number * 86_400 // LINES)
        before, behind = chance.choice(kinds)
        host = f"192.0.2.{chance.randrange(256)}"
        behind = behind.format(host=host, port=chance.randrange(1024, 65536))
        before = f"{time.strftime('%b %e %H:%M:%S', at)} host sshd[{number % 30_000}]: {before}"
        user = "a" * max(1, LINE_LENGTH - 1 - len(before) - len(behind))
        yield before + user + behind


def found(forms, prefix, failures, line):
    """Whether the line is a failure of an address: its date is found and taken out, and the rest is looked at."""
    for form in forms:
        date = form.search(line)
        if date:
            date.groups()
            break
    else:
        return False
    content = prefix.search(line[: date.start()] + line[date.end() :])
    if not content:
        return False
    content = content.group("f2bc")
    for failure in failures:
        match = failure.search(content)
        if match:
            return bool(match.group("f2b4") or match.group("f2b6"))
    return False


def search(text, anchored):
    frame = "^(?:{})" if anchored else "{}"
    forms = [re.compile(frame.format(form)) for form in FORMS]
    prefix = re.compile(PREFIX)
    failures = [re.compile(failure) for failure in FAILURES]
    begin = time.process_time()
    count = sum(found(forms, prefix, failures, line) for line in text.splitlines())
    return count, time.process_time() - begin


def main(program):
    cpu = max(os.sched_getaffinity(0))
    os.sched_setaffinity(0, {cpu})
    text = "".join(line + "\n" for line in lines())
    print(f"{LINES:,} lines of {len(text) / LINES:.0f} bytes; one of {os.cpu_count()} cores")
    print(f"{'dates searched':16} {'failures':>9} {'lines/s':>12} {'re lines/s':>12} {'times':>6}")
    with tempfile.TemporaryDirectory() as place:
        log = os.path.join(place, "log")
        with open(log, "w") as file:
            file.write(text)
        for anchored in (False, True):
            words = [program, "--anchored", log] if anchored else [program, log]
            count, cpu_time = run(words, cpu)
            other, other_time = search(text, anchored)
            if count != other:
                sys.exit(f"{count} failures, and Python finds {other}")
            where = "at the beginning" if anchored else "anywhere"
            fast, slow = LINES / cpu_time, LINES / other_time
            print(f"{where:16} {count:9,} {fast:12,.0f} {slow:12,.0f} {fast / slow:6.1f}")


if __name__ == "__main__":
    if len(sys.argv) != 2:
        sys.exit(__doc__)
    main(os.path.abspath(sys.argv[1]))
