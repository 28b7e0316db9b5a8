"""Has the server ban many addresses by a command that does nothing, and starts it over what it keeps of them, and prints what that took.

    bans.py SERVER [FOLDER]

Configurations, logs and the journal lie in folders that are made in FOLDER, and are removed. Each end of a command costs two syncs of their disk.
"""

import os
import subprocess
import sys
import tempfile
import time

from journal import appends_alone, peak_memory

# As many as the environment says, to see the script at work.
BANS = int(os.environ.get("BANS", 10_000))

# So many single failures are timed.
LINES = 50

# So many fail at once where bans come as fast as their commands run.
AT_ONCE = 20

# A jail with a log of its own, and how a line of it is a failure.
WATCHED = """\
[{name}]
enabled = true
logpath = {place}/{name}.log
ignoreself = false
findtime = 600
"""

SECONDS = """\
datepattern = Epoch
failregex = ^ fail from <IP4>$
"""

JAIL = f"{WATCHED}{SECONDS}maxretry = 1\nbantime = 60000\naction = {{actions}}\n"

# The last ban of a jail shows that all before it are made. No command starts a second process. Where a server is told so by its LANG each
# command is noted.
ACTION = """\
[Definition]
actionban = case "$LANG"<ip> in again*) echo <ip> >> {place}/again;; *) case <ip> in {last}) echo >> {place}/<name>-<actname>;; esac;; esac
"""

# What is wanted of an idle disk and idle processors: one lane beside as many shells, four lanes side by side, a start, and the way of a line.
ONE_LANE, FOUR_LANES, START, WAY = 1.4, 0.7, 0.3, 0.045


def address(number):
    return f"10.{number >> 16 & 255}.{number >> 8 & 255}.{number & 255}"


def failures(numbers):
    now = int(time.time())
    return "".join(f"{now} fail from {address(number)}\n" for number in numbers)


class Bench:
    """A configuration in a folder, with its logs."""

    def __init__(self, place, jails, actions):
        self.place = place
        self.jails = [f"jail{number}" for number in range(jails)]
        self.actions = [f"note{number}" for number in range(actions)]
        os.mkdir(f"{place}/conf")
        os.mkdir(f"{place}/conf/action.d")
        names = "\n    ".join(f"note[actname={action}]" for action in self.actions)
        with open(f"{place}/conf/jail.conf", "w") as file:
            file.writelines(JAIL.format(name=jail, place=place, actions=names) for jail in self.jails)
        with open(f"{place}/conf/fail2ban.conf", "w") as file:
            file.write(f"[Definition]\nsocket = {place}/run/fail2ban.sock\n")

    def ends_at(self, number):
        """Has the ban of this address be noted."""
        with open(f"{self.place}/conf/action.d/note.conf", "w") as file:
            file.write(ACTION.format(last=address(number), place=self.place))

    def counts(self):
        """Has each ban be noted."""
        with open(f"{self.place}/conf/action.d/note.conf", "w") as file:
            file.write(f"[Definition]\nactionban = echo >> {self.place}/<name>-<actname>\n")

    def fail(self, numbers):
        for jail in self.jails:
            with open(f"{self.place}/{jail}.log", "a") as file:
                file.write(failures(numbers))

    def start(self, server, *words, **environment):
        words = [server, "--conf", f"{self.place}/conf", *words]
        with open(f"{self.place}/said", "wb") as said:
            return subprocess.Popen(words, stdin=subprocess.DEVNULL, stdout=said, env={**os.environ, "LANG": "C", **environment})

    def said(self, process, line, times=1):
        """Waits until a line that ends so was said so many times, and gives the moment."""
        while True:
            with open(f"{self.place}/said") as said:
                text = said.read()
            if text.count(f"{line}\n") >= times:
                return time.monotonic()
            if process.poll() is not None:
                sys.exit(f"the server ended with {process.returncode}: {text[-500:]}")
            time.sleep(0.001)

    def slots(self):
        """How long both slots of the journal are."""
        paths = [f"{self.place}/run/journal.{number}" for number in range(2)]
        return [os.path.getsize(path) if os.path.exists(path) else 0 for path in paths]

    def wait(self, process, times=1):
        """Waits until the last ban of each jail was noted so many times, and gives the moment."""
        notes = [f"{self.place}/{jail}-{action}" for jail in self.jails for action in self.actions]
        while not all(os.path.exists(note) and os.path.getsize(note) >= times for note in notes):
            if process.poll() is not None:
                with open(f"{self.place}/said") as said:
                    sys.exit(f"the server ended with {process.returncode}: {said.read()[-500:]}")
            time.sleep(0.0005)
        return time.monotonic()


def bans(server, folder, jails, actions):
    """How long it takes until all are banned, whose failures are there before the start, and the most memory that the server has had."""
    with tempfile.TemporaryDirectory(dir=folder) as place:
        bench = Bench(place, jails, actions)
        bench.ends_at(BANS // jails - 1)
        bench.fail(range(BANS // jails))
        begin = time.monotonic()
        process = bench.start(server)
        try:
            return bench.wait(process) - begin, peak_memory(process)
        finally:
            process.kill()
            process.wait()


def paced(server, folder):
    """How long it takes until all are banned, of whom so few fail at once that hardly one waits for his command, and the most memory that the server
    has had."""
    with tempfile.TemporaryDirectory(dir=folder) as place:
        bench = Bench(place, 1, 1)
        bench.counts()
        begin = time.monotonic()
        process = bench.start(server)
        try:
            for first in range(0, BANS, AT_ONCE):
                bench.fail(range(first, min(first + AT_ONCE, BANS)))
                end = bench.wait(process, min(first + AT_ONCE, BANS))
            return end - begin, peak_memory(process)
        finally:
            process.kill()
            process.wait()


def shells():
    """How long it takes to start a shell as often, one behind the other."""
    begin = time.monotonic()
    for _ in range(BANS):
        number = os.posix_spawn("/bin/sh", ["/bin/sh", "-c", "true"], {"PATH": "/bin:/usr/bin"})
        os.waitpid(number, 0)
    return time.monotonic() - begin


def restarted(bench, server, other):
    """How long a start takes until the server is ready, its memory, and how many commands it runs in the two seconds that follow.

    `other` is an address that is not banned.
    """
    begin = time.monotonic()
    process = bench.start(server, LANG="again")
    try:
        took = bench.said(process, "INFO Server ready") - begin
        peak = peak_memory(process)
        time.sleep(2)
        # Whoever is banned is not found any more.
        bench.fail([0, other])
        bench.said(process, f"INFO [jail0] Found {address(other)}")
        with open(f"{bench.place}/said") as said:
            found = said.read()
        if f"Found {address(0)}\n" in found or "Unban" in found:
            sys.exit(f"a ban is lost: {found[:500]}")
        # Whoever is banned now has his command.
        run = []
        while address(other) not in run:
            time.sleep(0.01)
            if os.path.exists(f"{bench.place}/again"):
                with open(f"{bench.place}/again") as file:
                    run = file.read().split()
        os.remove(f"{bench.place}/again")
        return took, peak, len(run) - 1
    finally:
        process.kill()
        process.wait()


def starts(server, folder):
    """Starts over the journal of a server that was killed with its bans active: over one that has them as they came, and over one that has their state."""
    with tempfile.TemporaryDirectory(dir=folder) as place:
        bench = Bench(place, 1, 1)
        bench.ends_at(BANS - 1)
        bench.fail(range(BANS))
        process = bench.start(server)
        bench.wait(process)
        # The end of the last command is kept within a turn.
        time.sleep(2)
        process.kill()
        process.wait()
        yield "as they came", bench.slots(), *restarted(bench, server, BANS)
        # A limit that leaves no room for one input more has the slots changed.
        process = bench.start(server, "--journal-limit", str(max(bench.slots()) + 40))
        bench.fail([BANS + 1])
        bench.said(process, f"NOTICE [jail0] Ban {address(BANS + 1)}")
        time.sleep(2)
        process.kill()
        process.wait()
        yield "as a state", bench.slots(), *restarted(bench, server, BANS + 2)


def delays(server, folder):
    """How long it takes from the last byte of a line to the end of its command, where each line bans one address in a jail of its own."""
    with tempfile.TemporaryDirectory(dir=folder) as place:
        bench = Bench(place, 1, 1)
        bench.counts()
        process = bench.start(server)
        try:
            bench.fail([BANS])
            bench.wait(process)
            took = []
            for number in range(LINES):
                time.sleep(0.3 + number % 10 * 0.0251)
                bench.fail([number])
                begin = time.monotonic()
                took.append(bench.wait(process, number + 2) - begin)
            return sorted(took)
        finally:
            process.kill()
            process.wait()


def main(server, folder):
    took = shells()
    print(f"{BANS:,} times sh -c true: {took:.2f} s; {os.cpu_count()} cores, load {os.getloadavg()[0]:.1f}")
    rate = appends_alone(folder, 20)
    print(f"the disk by itself takes {rate:.0f} ends of commands a second, with two syncs each: {BANS / rate:.2f} s for {BANS:,}")
    print(f"{'':28} {'s':>7} {'times sh':>9} {'goal':>5} {'peak MiB':>9}")
    for jails, actions, goal in [(1, 1, ONE_LANE), (4, 1, FOUR_LANES), (1, 2, None), (1, 4, None)]:
        wall, peak = bans(server, folder, jails, actions)
        what = f"{jails} jail{'s' * (jails > 1)}, {actions} action{'s' * (actions > 1)}"
        print(f"{what:28} {wall:7.2f} {wall / took:9.2f} {goal or '':>5} {peak:9.1f}", flush=True)
    wall, peak = paced(server, folder)
    print(f"{f'1 jail, 1 action, {AT_ONCE} at once':28} {wall:7.2f} {wall / took:9.2f} {'':>5} {peak:9.1f}", flush=True)
    print(f"{'start with ' + format(BANS, ',') + ' bans':28} {'s':>7} {'goal':>15} {'peak MiB':>9} {'commands run':>13}  bytes of the slots")
    for what, lengths, wall, peak, run in starts(server, folder):
        print(f"{what:28} {wall:7.2f} {START:15} {peak:9.1f} {run:13}  {lengths}", flush=True)
    took = delays(server, folder)
    middle, most = (took[at] * 1000 for at in (LINES // 2, -1))
    print(f"from a line to the end of its command: {middle:.0f} ms at the median (goal {WAY * 1000:.0f}), {most:.0f} ms at most, of {LINES}")


if __name__ == "__main__":
    if len(sys.argv) not in (2, 3):
        sys.exit(__doc__)
    main(os.path.abspath(sys.argv[1]), os.path.abspath(sys.argv[2]) if len(sys.argv) == 3 else tempfile.gettempdir())
