"""Has a program and Python's re find the dates of the same lines on one core, and prints what each of them took.

    dates.py PROGRAM
"""

import os
import random
import re
import subprocess
import sys
import tempfile
import time

LINES = 300_000
LINE_LENGTH = 110

TIME = r"([0-9]{2}):([0-9]{2}):([0-9]{2})"
MONTH = r"(Jan|Feb|Mar|Apr|May|Jun|Jul|Aug|Sep|Oct|Nov|Dec)"

# The six usual forms, in their order.
FORMS = [
    r"([0-9]{4})-([0-9]{2})-([0-9]{2})[T ]" + TIME + r"(?:[.,][0-9]{1,9})?(Z|[+-][0-9]{2}:?[0-9]{2})?",
    r"([0-9]{2})/" + MONTH + r"/([0-9]{4}):" + TIME + r" ([+-][0-9]{4})",
    r"(?:(?:Mon|Tue|Wed|Thu|Fri|Sat|Sun) )?" + MONTH + r" +([0-9]{1,2}) " + TIME + r"(?:\.[0-9]{1,9})? ([0-9]{4})",
    r"([0-9]{4})/([0-9]{2})/([0-9]{2}) " + TIME,
    MONTH + r" +([0-9]{1,2}) " + TIME,
    r"\b([0-9]{10})(?:\.[0-9]{1,6})?\b",
]


def lines(date):
    """Lines of one length, each with a time of 2024-03-01 by the format."""
    chance = random.Random(1)
    for number in range(LINES):
        second = number * 86_400 // LINES
        at = time.gmtime(1_709_251_200 + second)
        port = chance.randrange(1024, 65536)
        line = (
            f"{time.strftime(date, at)} host sshd[{number % 30_000}]: Failed password for ann from "
            f"192.0.2.{chance.randrange(256)} port {port} ssh2: "
        )
        yield line.ljust(LINE_LENGTH - 1, "x")[: LINE_LENGTH - 1]


def search(text, anchored):
    """Counts the lines with a date, and takes the parts of each date."""
    frame = "^(?:{})" if anchored else "{}"
    forms = [re.compile(frame.format(form)) for form in FORMS]
    begin = time.process_time()
    count = 0
    for line in text.splitlines():
        for form in forms:
            found = form.search(line)
            if found:
                found.groups()
                count += 1
                break
    return count, time.process_time() - begin


def run(words, cpu):
    program = subprocess.run(
        words, stdout=subprocess.PIPE, text=True, check=True, preexec_fn=lambda: os.sched_setaffinity(0, {cpu})
    )
    count, microseconds = program.stdout.split()
    return int(count), int(microseconds) / 1e6


def main(program):
    cpu = max(os.sched_getaffinity(0))
    os.sched_setaffinity(0, {cpu})
    print(f"{LINES:,} lines of {LINE_LENGTH} bytes; one of {os.cpu_count()} cores")
    print(f"{'lines begin with':20} {'searched':10} {'lines/s':>12} {'re lines/s':>12} {'times':>6}")
    rows = [
        ("form 1, ISO 8601", "%Y-%m-%dT%H:%M:%S+00:00"),
        ("form 5, syslog", "%b %e %H:%M:%S"),
    ]
    with tempfile.TemporaryDirectory() as place:
        log = os.path.join(place, "log")
        for name, date in rows:
            text = "".join(line + "\n" for line in lines(date))
            with open(log, "w") as file:
                file.write(text)
            for anchored in (False, True):
                words = [program, "--anchored", log] if anchored else [program, log]
                count, cpu_time = run(words, cpu)
                other, other_time = search(text, anchored)
                if count != other:
                    sys.exit(f"{count} dates, and Python finds {other}")
                where = "beginning" if anchored else "anywhere"
                fast, slow = LINES / cpu_time, LINES / other_time
                print(f"{name:20} {where:10} {fast:12,.0f} {slow:12,.0f} {fast / slow:6.1f}")


if __name__ == "__main__":
    if len(sys.argv) != 2:
        sys.exit(__doc__)
    main(os.path.abspath(sys.argv[1]))
