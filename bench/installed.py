"""Has the fail2ban that is written in Python do what bans.py and logs.py have this one do, and prints what that took.

    installed.py [ROOT]

ROOT is where its package is, / where it is installed; one that was only unpacked does as well.
"""

import os
import subprocess
import sys
import tempfile
import time

import bans
import logs
from bans import BANS, address, failures
from journal import peak_memory, processor_time
from tester import FILTER

# A tenth of the lines of logs.py, since it reads some ten thousand a second.
LINES = int(os.environ.get("LINES", 20_000))

# Whose failure is the last line of each log.
LAST = "203.0.113.99"

SERVER = """\
[Definition]
loglevel = INFO
logtarget = {place}/said
syslogsocket = auto
socket = {place}/socket
pidfile = {place}/pid
dbfile = {place}/db
dbpurgeage = 86400
dbmaxmatches = 10
[Thread]
stacksize = 0
"""

JAIL = """\
[{name}]
enabled = true
filter = all
logpath = {place}/{name}.log
backend = polling
usedns = no
ignoreself = false
findtime = 600
maxretry = {maxretry}
bantime = 60000
action = {action}
"""

SECONDS = """\
[Definition]
datepattern = ^Epoch
failregex = ^ fail from <IP4>$
"""

# The command of bans.py where it notes the last ban of a jail.
ACTION = """\
[Definition]
actionban = case <ip> in {last}) echo >> {place}/<name>-note0;; esac
actionunban =
"""

EACH = """\
[Definition]
actionban = echo >> {place}/<name>-note0
actionunban =
"""


class Installed:
    """Its configuration in a folder, with a log for each jail."""

    def __init__(self, root, place, jails, maxretry, filter_text, action=None):
        self.root, self.place = root, place
        self.names = [f"jail{number}" for number in range(jails)]
        for folder in ("filter.d", "action.d"):
            os.makedirs(f"{place}/conf/{folder}")
        self.put("fail2ban.conf", SERVER.format(place=place))
        self.put("filter.d/all.conf", filter_text)
        used = "note" if action else ""
        self.put("jail.conf", "".join(JAIL.format(name=name, place=place, maxretry=maxretry, action=used) for name in self.names))
        if action:
            self.put("action.d/note.conf", action)
        for name in self.names:
            self.add(name, [])

    def put(self, name, text):
        with open(f"{self.place}/conf/{name}", "w") as file:
            file.write(text)

    def add(self, name, lines):
        with open(f"{self.place}/{name}.log", "a") as file:
            file.writelines(lines)

    def start(self):
        words = [f"{self.root}/usr/bin/fail2ban-server", "-c", f"{self.place}/conf", "-f", "start"]
        python = {"PYTHONPATH": f"{self.root}/usr/lib/python3/dist-packages"}
        return subprocess.Popen(["/usr/bin/python3", *words], stdin=subprocess.DEVNULL, stdout=subprocess.DEVNULL, stderr=subprocess.DEVNULL, env={**os.environ, **python})

    def said(self):
        try:
            with open(f"{self.place}/said") as file:
                return file.read()
        except FileNotFoundError:
            return ""

    def wait(self, process, is_there):
        while not is_there():
            if process.poll() is not None:
                sys.exit(f"the server ended with {process.returncode}: {self.said()[-500:]}")
            time.sleep(0.001)
        return time.monotonic()

    def wait_for_notes(self, process, times=1):
        notes = [f"{self.place}/{name}-note0" for name in self.names]
        return self.wait(process, lambda: all(os.path.exists(note) and os.path.getsize(note) >= times for note in notes))

    def wait_for_words(self, process, words, times):
        return self.wait(process, lambda: self.said().count(words) >= times)

    def ready(self, process):
        self.wait_for_words(process, "' started\n", len(self.names))


def many_bans(root, folder, jails):
    """How long it takes until all are banned, whose failures are there before the start, and the most memory that it has had."""
    with tempfile.TemporaryDirectory(dir=folder) as place:
        each = Installed(root, place, jails, 1, SECONDS, ACTION.format(last=address(BANS // jails - 1), place=place))
        for name in each.names:
            each.add(name, failures(range(BANS // jails)))
        begin = time.monotonic()
        process = each.start()
        try:
            return each.wait_for_notes(process) - begin, peak_memory(process)
        finally:
            bans_ended(process)


def bans_ended(process):
    process.kill()
    process.wait()


def way(root, folder):
    """From the last byte of a line to the end of its command, where each line bans one address."""
    with tempfile.TemporaryDirectory(dir=folder) as place:
        each = Installed(root, place, 1, 1, SECONDS, EACH.format(place=place))
        process = each.start()
        try:
            each.ready(process)
            took = []
            for number in range(bans.LINES):
                time.sleep(0.3 + number % 10 * 0.0251)
                each.add("jail0", failures([number]))
                begin = time.monotonic()
                took.append(each.wait_for_notes(process, number + 1) - begin)
            return sorted(took)
        finally:
            bans_ended(process)


def lines_a_second(root, what, filter_text, jails, lines, last):
    """Has it read logs that grow at once, up to their last line, which is a failure: lines a second of processor time."""
    with tempfile.TemporaryDirectory() as place:
        each = Installed(root, place, jails, 100_000, filter_text)
        process = each.start()
        try:
            each.ready(process)
            time.sleep(1)
            before = processor_time(process)
            for name in each.names:
                each.add(name, [*lines, last])
            each.wait_for_words(process, f" Found {LAST} ", jails)
            took = processor_time(process) - before
            found = each.said().count(" Found ")
            print(f"{what:44} {found:9,} {len(lines) * jails / took:12,.0f} {'':12} {peak_memory(process):8.1f}", flush=True)
        finally:
            bans_ended(process)


def idle(root):
    """What part of a core it takes where its logs do not change."""
    with tempfile.TemporaryDirectory() as place:
        each = Installed(root, place, logs.IDLE_JAILS, 3, FILTER)
        process = each.start()
        try:
            each.ready(process)
            time.sleep(3)
            before = processor_time(process)
            time.sleep(logs.IDLE_SECONDS)
            return (processor_time(process) - before) / logs.IDLE_SECONDS
        finally:
            bans_ended(process)


def main(root):
    folder = tempfile.gettempdir()
    took = bans.shells()
    print(f"{BANS:,} times sh -c true: {took:.2f} s; {os.cpu_count()} cores, load {os.getloadavg()[0]:.1f}")
    for jails in (1, 4):
        wall, peak = many_bans(root, folder, jails)
        print(f"{f'{jails} jails, 1 action':28} {wall:7.2f} {wall / took:9.2f} {'':>5} {peak:9.1f}", flush=True)
    took = way(root, folder)
    print(f"from a line to the end of its command: {took[len(took) // 2] * 1000:.0f} ms at the median, {took[-1] * 1000:.0f} ms at most, of {len(took)}")
    logs.LINES = LINES
    date = time.strftime("%b %e %H:%M:%S", time.gmtime())
    last = f"{date} host sshd[1]: Failed password for ann from {LAST} port 40222 ssh2\n"
    lines_a_second(root, "ten jails, ten logs, sshd, 30 in 100", FILTER, logs.JAILS, list(logs.sshd_lines()), last)
    for failed in (2, 30, 100):
        lines_a_second(root, f"one log, seconds, {failed} in 100", SECONDS, 1, list(logs.epoch_lines(failed)), f"{int(time.time())} fail from {LAST}\n")
    print(f"{logs.IDLE_JAILS} jails whose logs do not change: {idle(root) * 100:.2f} % of a core")


if __name__ == "__main__":
    if len(sys.argv) > 2:
        sys.exit(__doc__)
    main(os.path.abspath(sys.argv[1]) if len(sys.argv) == 2 else "")
