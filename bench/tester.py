"""Makes two logs, has the pattern tester and grep search them on one core, and prints what each of them took.

    tester.py TESTER [LINES]

LINES is how many lines each of them has, 300,000 where it is left out; 18,000,000 make a log of 2 GB. Where a fail2ban-regex is installed
it searches them too.
"""

import os
import random
import shutil
import sys
import tempfile
import time

from follow import run

LINES = 300_000
LINE_LENGTH = 118
FAILURES_IN_100 = 30

PATTERN = r"^ fail of \S+ from <IP4>$"

FILTER = r"""[Definition]
prefregex = ^\s*\S+ sshd(?:-session)?\[[0-9]+\]: <F-CONTENT>.+</F-CONTENT>$
failregex = ^Failed \S+ for (?:invalid user )?<F-USER>.*</F-USER> from <HOST> port [0-9]+(?: ssh2)?$
    ^Invalid user <F-USER>.*</F-USER> from <HOST>(?: port [0-9]+)?$
    ^Connection closed by authenticating user <F-USER>.*</F-USER> <HOST> port [0-9]+ \[preauth\]$
ignoreregex =
datepattern = {^LN-BEG}
"""

# What stands before and behind the user's name in failures, by turns, and in all other lines.
SSHD_FAILURES = [
    ("Failed password for ", " from {host} port {port} ssh2"),
    ("Invalid user ", " from {host} port {port}"),
    ("Connection closed by authenticating user ", " {host} port {port} [preauth]"),
]
SSHD_OTHER = ("Accepted password for ", " from {host} port {port} ssh2")

WHOLE_LINES = {
    "epoch": r"^[0-9]{10} fail of \S+ from (::[fF]{4}:)?[0-9]{1,3}(\.[0-9]{1,3}){3}$",
    "sshd": r"^\S+ +[0-9]+ \S+ \S+ sshd\[[0-9]+\]: (Failed \S+ for|Invalid user|Connection closed by authenticating user) .* [0-9.]+ port [0-9]+",
}


def filled(before, behind):
    """A line of one length with the line feed, with a user's name as long as is left for it."""
    return before + "a" * max(1, LINE_LENGTH - 1 - len(before) - len(behind)) + behind + "\n"


def parts(log, number, at, chance):
    """What stands before and behind the user's name in a line."""
    host = f"198.51.100.{chance.randrange(256)}"
    is_failure = chance.randrange(100) < FAILURES_IN_100
    if log == "epoch":
        return f"{at} {'fail' if is_failure else 'login'} of ", f" from {host}"
    before, behind = SSHD_FAILURES[number % len(SSHD_FAILURES)] if is_failure else SSHD_OTHER
    date = time.strftime("%b %e %H:%M:%S", time.gmtime(at))
    return f"{date} host sshd[{number % 30_000}]: {before}", behind.format(host=host, port=chance.randrange(1024, 65536))


def lines(log, count):
    chance = random.Random(1)
    begin = int(time.time()) - 86_400
    for number in range(count):
        yield filled(*parts(log, number, begin + number * 86_400 // count, chance))


def measure(place, log, count, tester, words, cpu):
    path = os.path.join(place, log)
    with open(path, "w") as file:
        file.writelines(lines(log, count))
    runs = [
        run("fail2ban-regex", [tester, *words(path)], cpu),
        run("grep -cE", ["grep", "-cE", WHOLE_LINES[log], path], cpu),
    ]
    other = shutil.which("fail2ban-regex")
    if other:
        runs.append(run("the installed one", [other, *words(path)], cpu))
    print(f"{log}: {count:,} lines, {os.path.getsize(path):,} bytes; {runs[0].output.splitlines()[0]}, grep {runs[1].output.strip()}")
    for each in runs:
        print(f"  {each.name:18} {count / each.cpu:12,.0f} lines/s {each.cpu:8.2f} CPU s {each.peak / 1024:8.1f} MiB")


def main(tester, count):
    cpu = max(os.sched_getaffinity(0))
    with tempfile.TemporaryDirectory() as place:
        os.mkdir(os.path.join(place, "filter.d"))
        sshd = os.path.join(place, "filter.d", "sshd.conf")
        with open(sshd, "w") as file:
            file.write(FILTER)
        measure(place, "epoch", count, tester, lambda path: ["-d", "Epoch", path, PATTERN], cpu)
        measure(place, "sshd", count, tester, lambda path: [path, sshd], cpu)


if __name__ == "__main__":
    if len(sys.argv) in (2, 3):
        main(os.path.abspath(sys.argv[1]), int(sys.argv[2]) if len(sys.argv) == 3 else LINES)
    else:
        sys.exit(__doc__)
