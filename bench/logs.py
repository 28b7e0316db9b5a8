"""Has the server follow logs of many kinds, and prints what that took.

    logs.py SERVER

Lines a second are of processor time, on one core; beside them are those of Python's re on the same lines.
"""

import os
import random
import subprocess
import sys
import tempfile
import time

from bans import SECONDS, WATCHED
from findings import search
from follow import LOOK, run
from follow import search as search_epoch
from tester import FILTER, LINE_LENGTH, filled, parts

JAILS = 10
LINES = 200_000

# No failure bans.
COUNTED = f"{WATCHED}maxretry = 1000\nbantime = 60\n"
SSHD = f"{COUNTED}filter = sshd\n"
EPOCH = f"{COUNTED}{SECONDS}"

IDLE_JAILS = 20
IDLE_SECONDS = 20

DELAYS = 50

ROTATIONS = 4
LINES_A_SECOND = 200


class Tree:
    """A configuration of some jails in a folder, with a log for each."""

    def __init__(self, place, jail, jails):
        self.place = place
        self.names = [f"jail{number}" for number in range(jails)]
        os.makedirs(f"{place}/conf/filter.d")
        with open(f"{place}/conf/jail.conf", "w") as file:
            file.writelines(jail.format(name=name, place=place) for name in self.names)
        with open(f"{place}/conf/filter.d/sshd.conf", "w") as file:
            file.write(FILTER)
        with open(f"{place}/conf/fail2ban.conf", "w") as file:
            file.write(f"[Definition]\nsocket = {place}/run/fail2ban.sock\n")

    def log(self, name):
        return f"{self.place}/{name}.log"

    def write(self, name, lines):
        with open(self.log(name), "w") as file:
            file.writelines(lines)

    def words(self, server):
        return [server, "--conf", f"{self.place}/conf"]

    def start(self, server):
        return subprocess.Popen(self.words(server), stdin=subprocess.DEVNULL, stdout=open(f"{self.place}/said", "wb"))

    def said(self):
        with open(f"{self.place}/said") as file:
            return file.read()


def sshd_lines():
    """Lines of the last minute, of which 30 in 100 are failures."""
    chance = random.Random(1)
    begin = int(time.time()) - 60
    for number in range(LINES):
        yield filled(*parts("sshd", number, begin + number * 60 // LINES, chance))


def epoch_lines(failures):
    """Lines of the last minute, of which so many in 100 are failures."""
    begin = int(time.time()) - 60
    for number in range(LINES):
        at = begin + number * 60 // LINES
        if number * 37 % 100 < failures:
            yield f"{at} fail from 198.51.{number % 1000 // 250}.{number % 250}\n"
        else:
            yield f"{at} sshd[{number % 30_000}]: Accepted publickey for ann from 192.0.2.7 port 40222 ssh2: ".ljust(89, "x") + "\n"


def turns(size):
    return size // (LOOK - LINE_LENGTH) + 3


def show(what, count, found, each, other):
    print(f"{what:44} {found:9,} {count / each.cpu:12,.0f} {count / other:12,.0f} {each.peak / 1024:8.1f}")


def ten_logs(server, cpu):
    with tempfile.TemporaryDirectory() as place:
        tree = Tree(place, SSHD, JAILS)
        lines = list(sshd_lines())
        for name in tree.names:
            tree.write(name, lines)
        size = os.path.getsize(tree.log(tree.names[0]))
        each = run("fail2ban-server", [*tree.words(server), "--turns", str(turns(size))], cpu)
        count, other = search("".join(lines), True)
        found = each.output.count(" Found ")
        if found != count * JAILS:
            print(f"{found} failures said, and Python finds {count} in each log")
        show("ten jails, ten logs, sshd, 30 in 100", LINES * JAILS, found, each, other * JAILS)


def one_log(server, cpu, failures):
    with tempfile.TemporaryDirectory() as place:
        tree = Tree(place, EPOCH, 1)
        tree.write(tree.names[0], epoch_lines(failures))
        path = tree.log(tree.names[0])
        each = run("fail2ban-server", [*tree.words(server), "--turns", str(turns(os.path.getsize(path)))], cpu)
        begin = time.process_time()
        count = search_epoch(path)
        other = time.process_time() - begin
        found = each.output.count(" Found ")
        if found != count:
            print(f"{found} failures said, and Python finds {count}")
        show(f"one log, seconds, {failures} in 100", LINES, found, each, other)


def wait_for(tree, words, process):
    while words not in tree.said():
        if process.poll() is not None:
            sys.exit(f"the server ended with {process.returncode}: {tree.said()[-500:]}")
        time.sleep(0.0005)
    return time.monotonic()


def ended(process):
    process.kill()
    process.wait()


def delays(server):
    """How long it takes from the last byte of a line until its failure is said."""
    with tempfile.TemporaryDirectory() as place:
        tree = Tree(place, EPOCH, 1)
        tree.write(tree.names[0], [])
        process = tree.start(server)
        try:
            wait_for(tree, "ready", process)
            took = []
            for number in range(DELAYS):
                time.sleep(0.3 + number % 10 * 0.0251)
                with open(tree.log(tree.names[0]), "a") as file:
                    file.write(f"{int(time.time())} fail from 10.0.0.{number}\n")
                begin = time.monotonic()
                took.append(wait_for(tree, f"Found 10.0.0.{number}\n", process) - begin)
            return sorted(took)
        finally:
            ended(process)


def processor_time(process):
    with open(f"/proc/{process.pid}/stat") as file:
        fields = file.read().rpartition(")")[2].split()
    return (int(fields[11]) + int(fields[12])) / os.sysconf("SC_CLK_TCK")


def idle(server):
    """What part of a core a server has whose logs do not change."""
    with tempfile.TemporaryDirectory() as place:
        tree = Tree(place, SSHD, IDLE_JAILS)
        for name in tree.names:
            tree.write(name, [])
        process = tree.start(server)
        try:
            wait_for(tree, "ready", process)
            time.sleep(1)
            before = processor_time(process)
            time.sleep(IDLE_SECONDS)
            return (processor_time(process) - before) / IDLE_SECONDS
        finally:
            ended(process)


def lost(server):
    """How many of the lines that are written at a steady pace are not found, where the log is moved away some times."""
    with tempfile.TemporaryDirectory() as place:
        tree = Tree(place, EPOCH, 1)
        tree.write(tree.names[0], [])
        path = tree.log(tree.names[0])
        process = tree.start(server)
        try:
            wait_for(tree, "ready", process)
            number, begin = 0, time.monotonic()
            for rotation in range(ROTATIONS + 1):
                with open(path, "a") as file:
                    while number < (rotation + 1) * 2 * LINES_A_SECOND:
                        file.write(f"{int(time.time())} fail from 10.{number >> 16 & 255}.{number >> 8 & 255}.{number & 255}\n")
                        file.flush()
                        number += 1
                        time.sleep(max(0.0, begin + number / LINES_A_SECOND - time.monotonic()))
                if rotation < ROTATIONS:
                    os.rename(path, f"{path}.{rotation}")
            time.sleep(2)
            return number - tree.said().count(" Found "), number
        finally:
            ended(process)


def main(server):
    cpu = max(os.sched_getaffinity(0))
    print(f"one of {os.cpu_count()} cores")
    print(f"{'':44} {'found':>9} {'lines/s':>12} {'re lines/s':>12} {'peak MiB':>8}")
    ten_logs(server, cpu)
    for failures in (2, 30, 100):
        one_log(server, cpu, failures)
    took = delays(server)
    print(f"from a line's last byte until it is said: {took[DELAYS // 2] * 1000:.0f} ms at the median, {took[-1] * 1000:.0f} ms at most, of {DELAYS}")
    print(f"{IDLE_JAILS} jails whose logs do not change: {idle(server) * 100:.2f} % of a core")
    missed, of = lost(server)
    print(f"{ROTATIONS} rotations at {LINES_A_SECOND} lines a second: {missed} of {of} lines are not found")


if __name__ == "__main__":
    if len(sys.argv) != 2:
        sys.exit(__doc__)
    main(os.path.abspath(sys.argv[1]))
