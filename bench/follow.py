"""Makes a log, has each program search it on one core, and prints what each of them took.

    follow.py SERVER        measures all programs
    follow.py --search LOG  searches the log by Python's re, and prints how many failures it has
"""

import os
import random
import re
import shutil
import subprocess
import sys
import tempfile
import time
from dataclasses import dataclass

LINES = 200_000
LINE_LENGTH = 90
FAILURES_IN_100 = 2
ADDRESSES = 1_000

# A server's look at a log takes so many bytes at most, and it makes one look a turn.
LOOK = 65_536

# The last lines of the log are failures of this address, as many as ban it.
LAST_ADDRESS = "203.0.113.99"
MAXRETRY = 3

JAIL = """\
[web]
enabled = true
logpath = {log}
ignoreself = false
datepattern = Epoch
failregex = ^ fail from <IP4>$
findtime = 600
maxretry = {maxretry}
bantime = 60
"""

# The two patterns of that jail, as the server builds them.
DATE = r"\b([0-9]{10})(?:\.[0-9]{1,6})?\b"
FAILURE = r"^ fail from (?:::[fF]{4}:)?(?P<f2b4>[0-9]{1,3}(?:\.[0-9]{1,3}){3})$"

# The second one, for programs that do not take the date out.
WHOLE_LINE = r"^[0-9]{10} fail from (::[fF]{4}:)?[0-9]{1,3}(\.[0-9]{1,3}){3}$"


@dataclass
class Run:
    name: str
    wall: float
    cpu: float
    peak: int
    output: str


def log_lines(begin):
    """Lines that are no failure are as long as LINE_LENGTH says, with the line feed."""
    chance = random.Random(1)
    for number in range(LINES):
        date = begin + number * 60 // LINES
        if number >= LINES - MAXRETRY:
            yield f"{date} fail from {LAST_ADDRESS}\n"
        elif chance.randrange(100) < FAILURES_IN_100:
            place = chance.randrange(ADDRESSES)
            yield f"{date} fail from 198.51.{place // 250}.{place % 250 + 1}\n"
        else:
            port = chance.randrange(1024, 65536)
            line = f"{date} sshd[{number}]: Accepted publickey for ann from 192.0.2.7 port {port} ssh2: "
            yield line.ljust(LINE_LENGTH - 1, "x")[: LINE_LENGTH - 1] + "\n"


def search(log):
    """Counts the failures: the date is found and taken out, and what is left is a failure or not."""
    date_pattern = re.compile(DATE)
    failure_pattern = re.compile(FAILURE)
    failures = 0
    with open(log, encoding="utf-8", errors="replace") as lines:
        for line in lines:
            line = line.rstrip("\n")
            date = date_pattern.search(line)
            if date is None:
                continue
            int(date.group(1))
            if failure_pattern.search(line[: date.start()] + line[date.end() :]):
                failures += 1
    return failures


def peak_memory(pid, known):
    """The most memory that a process has had so far, in KiB."""
    try:
        with open(f"/proc/{pid}/status") as status:
            for line in status:
                if line.startswith("VmHWM:"):
                    return max(known, int(line.split()[1]))
    except OSError:
        pass
    return known


def run(name, words, cpu):
    """Runs a program to its end on one core."""
    with tempfile.TemporaryFile("w+") as output:
        begin = time.monotonic()
        program = subprocess.Popen(
            words,
            stdin=subprocess.DEVNULL,
            stdout=output,
            stderr=subprocess.STDOUT,
            env={**os.environ, "LC_ALL": "C.UTF-8"},
            preexec_fn=lambda: os.sched_setaffinity(0, {cpu}),
        )
        peak = 0
        ended = 0
        while ended == 0:
            peak = peak_memory(program.pid, peak)
            time.sleep(0.002)
            ended, status, usage = os.wait4(program.pid, os.WNOHANG)
        wall = time.monotonic() - begin
        program.returncode = os.waitstatus_to_exitcode(status)
        output.seek(0)
        text = output.read()
    if program.returncode != 0:
        sys.exit(f"{name} ended with status {program.returncode}:\n{text[-2000:]}")
    return Run(name, wall, usage.ru_utime + usage.ru_stime, peak, text)


def show(runs):
    print(f"{'':16} {'lines/s':>12} {'CPU s':>8} {'wall s':>8} {'peak MiB':>9}")
    for each in runs:
        speed = f"{LINES / each.cpu:,.0f}"
        print(f"{each.name:16} {speed:>12} {each.cpu:8.2f} {each.wall:8.2f} {each.peak / 1024:9.1f}")


def measure(server):
    cpu = max(os.sched_getaffinity(0))
    with tempfile.TemporaryDirectory() as place:
        log = os.path.join(place, "web.log")
        with open(log, "w") as file:
            file.writelines(log_lines(int(time.time()) - 60))
        size = os.path.getsize(log)
        with open(os.path.join(place, "jail.conf"), "w") as file:
            file.write(JAIL.format(log=log, maxretry=MAXRETRY))
        with open(os.path.join(place, "fail2ban.conf"), "w") as file:
            file.write(f"[Definition]\nsocket = {place}/run/fail2ban.sock\n")

        # A look ends within a line, so whole lines may need a turn more than the bytes do.
        turns = size // (LOOK - LINE_LENGTH) + 2
        runs = [
            run("fail2ban-server", [server, "--conf", place, "--turns", str(turns)], cpu),
            run("Python re", [sys.executable, __file__, "--search", log], cpu),
            run("grep -cE", ["grep", "-cE", WHOLE_LINE, log], cpu),
        ]
        tool = shutil.which("fail2ban-regex")
        if tool:
            words = [tool, "-d", "Epoch", log, "^ fail from <IP4>$"]
            runs.append(run("fail2ban-regex", words, cpu))

        said = runs[0].output
        print(f"{LINES:,} lines, {size:,} bytes, {runs[1].output.strip()} of them failures; one of {os.cpu_count()} cores")
        print(f"server: {said.count(' Found ')} Found, {said.count(' Ban ')} Ban, in {turns} turns")
        if f" Ban {LAST_ADDRESS}" not in said:
            print("server: the last lines of the log were not read")
        print()
        show(runs)


if __name__ == "__main__":
    if len(sys.argv) == 3 and sys.argv[1] == "--search":
        print(search(sys.argv[2]))
    elif len(sys.argv) == 2:
        measure(os.path.abspath(sys.argv[1]))
    else:
        sys.exit(__doc__)
