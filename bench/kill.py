"""Kills the server again and again at random moments, starts it each time, and prints what was lost by that.

    kill.py SERVER [KILLS [SEED]]

Four jails ban each address at its first failure, for a few seconds, by commands that note when they begin and when they end. Failures are
written all the time, also while no server runs. Each server has a number, which its commands find in their PATH. What a ban is can be told
from outside: the address and the moment at which it began, which its commands note.

What has to be, by what the server said, what its commands noted, and what was written to the logs:

- A ban that was said is not lost: no later one of its address begins before it ends, no failure of its address is counted meanwhile, it is
  lifted no sooner, and it is lifted.
- A command that is settled is not run again. Settled are all commands of a lane that stand before one that was started, since a lane starts
  the next one when the end of the last one is on the disk; and all that had ended before the server began two more turns, since each turn
  asks the commands that run whether they have ended, and writes their ends.
- No command is missing: each failure that was written comes to a ban, each ban to its two commands, which end, in this order, and each action
  begins once.
- Nothing else ends a server.

It exits with 1 where one of these is not so.
"""

import collections
import os
import random
import signal
import subprocess
import sys
import tempfile
import threading
import time

JAILS = 4
BANTIME = 3

# How many failures are written in a second, to all logs together.
RATE = 10

# So many addresses may be banned and not yet lifted; more failures are written once there are fewer.
MOST_OWED = 60

# So long a slot may get: so short that slots are changed while servers are killed.
LIMIT = 24_000

# So many seconds at most a server is at work before it is killed.
AT_WORK = 2

# How long the last server may take to do all that is left.
PATIENCE = 600

JAIL = """\
[jail{number}]
enabled = true
logpath = {place}/{number}.log
ignoreself = false
datepattern = {{NONE}}
failregex = fail from <IP4>$
findtime = 86400
maxretry = 1
bantime = {bantime}
action = note
"""

# A jail whose failures ban nobody. They tell how far a server is.
PROBE = """\
[probe]
enabled = true
logpath = {place}/probe.log
ignoreself = false
datepattern = {{NONE}}
failregex = fail from <IP4>$
findtime = 2
maxretry = 100000
"""

# What each command does: it notes its beginning and its end with the number of its server, which ends its PATH, and that of its shell, and
# what it is for. Some take a while, so that servers are killed while they run.
NOTE = """\
echo "begin ${{PATH##*:/}} $$ $*" >> {place}/done
case "$4" in *[37]) sleep 0.0$(($3 % 10));; esac
echo "end ${{PATH##*:/}} $$ $*" >> {place}/done
"""


def configure(place):
    os.makedirs(f"{place}/conf/action.d")
    with open(f"{place}/conf/jail.conf", "w") as file:
        file.writelines(JAIL.format(number=number, place=place, bantime=BANTIME) for number in range(JAILS))
        file.write(PROBE.format(place=place))
    with open(f"{place}/conf/fail2ban.conf", "w") as file:
        file.write(f"[Definition]\nsocket = {place}/run/fail2ban.sock\ndbpurgeage = 5\n")
    with open(f"{place}/conf/action.d/note.conf", "w") as file:
        file.write("[Definition]\n")
        file.writelines(f"action{kind} = set -- {kind} <name> <time> <ip>; . {place}/note\n" for kind in ("start", "ban", "unban"))
    with open(f"{place}/note", "w") as file:
        file.write(NOTE.format(place=place))


def lines_of(path, begin=0):
    """The whole lines of a file from a place on."""
    try:
        with open(path, "rb") as file:
            file.seek(begin)
            return file.read().rpartition(b"\n")[0].decode().splitlines()
    except FileNotFoundError:
        return []


def has_gone(pid):
    """Whether a process has ended; whether its parent knows is another matter."""
    try:
        with open(f"/proc/{pid}/stat", encoding="utf-8") as file:
            return file.read().rsplit(")", 1)[1].split()[0] in "ZX"
    except (FileNotFoundError, ProcessLookupError):
        return True


# A command by what it does: its kind, its jail, its address and the moment at which the ban began. Start has no address.
Command = collections.namedtuple("Command", "kind jail ip begin")
Note = collections.namedtuple("Note", "mark server pid command")


def note_of(line):
    mark, server, pid, kind, jail, begin, *ip = line.split(" ")
    return Note(mark, int(server), int(pid), Command(kind, jail, "".join(ip), int(begin)))


def fail(place, log, ip):
    """Writes a failure to a log, in one call."""
    with open(f"{place}/{log}.log", "ab", buffering=0) as file:
        file.write(f"fail from {ip}\n".encode())


class Load(threading.Thread):
    """Writes failures until it is stopped: new addresses, and now and then one that was banned just before."""

    def __init__(self, place, numbers):
        super().__init__(daemon=True)
        self.place, self.numbers = place, numbers
        self.stopped = threading.Event()
        # Of each jail, the addresses that were written, and when they were written first.
        self.written = [{} for _ in range(JAILS)]
        self.count = 0
        # How much of the notes was read, and whose bans were lifted by them.
        self.seen, self.lifted = 0, set()

    def run(self):
        while not self.stopped.wait(self.numbers.expovariate(RATE)):
            if self.is_far_ahead():
                continue
            number = self.numbers.randrange(JAILS)
            written = self.written[number]
            now = int(time.time())
            recent = [ip for ip, at in list(written.items())[-20:] if now - at <= 1]
            if recent and self.numbers.random() < 0.3:
                ip = self.numbers.choice(recent)
            else:
                self.count += 1
                ip = f"10.{self.count >> 16}.{self.count >> 8 & 255}.{self.count & 255}"
                written[ip] = now
            fail(self.place, number, ip)

    def is_far_ahead(self):
        """Whether so many commands are owed that they would fill the journal."""
        path = f"{self.place}/done"
        for line in lines_of(path, self.seen):
            self.seen += len(line) + 1
            note = note_of(line)
            if note.mark == "end" and note.command.kind == "unban":
                self.lifted.add(note.command.ip)
        return self.count - len(self.lifted) >= MOST_OWED


class Server:
    """A server that runs, with its number and the file that has its lines."""

    def __init__(self, program, place, number, more=()):
        self.number, self.place = number, place
        self.said_in = f"{place}/said-{number}"
        environment = {**os.environ, "PATH": f"/usr/bin:/bin:/{number}"}
        words = [program, "--conf", f"{place}/conf", "--journal-limit", str(LIMIT), *more]
        with open(self.said_in, "wb") as said, open(f"{place}/errors", "ab") as errors:
            self.process = subprocess.Popen(words, stdin=subprocess.DEVNULL, stdout=said, stderr=errors, env=environment)

    def said(self):
        """What was said, as moments and texts."""
        return [(int(second), text) for second, text in (line.split(" ", 1) for line in lines_of(self.said_in))]

    def has_said(self, text):
        return any(said == text for _second, said in self.said())


def size(path):
    return os.path.getsize(path) if os.path.exists(path) else 0


def probe_address(count):
    return f"203.{count >> 16}.{count >> 8 & 255}.{count & 255}"


class Probes:
    """Tells how far a server is: one failure after the other is written to a log, each when the last one was said.

    All commands that had ended before one was written are settled when the next one is said: it was found by a later turn, and the turn that
    found the first one had asked them before.
    """

    def __init__(self, place):
        self.place, self.count = place, 0
        self.settled = set()
        self.begin()

    def begin(self):
        """For a server that was just started."""
        self.waiting, self.ended_before = None, []
        self.notes_from = size(f"{self.place}/done")

    def step(self, server):
        if self.waiting and not server.has_said(f"INFO [probe] Found {self.waiting[0]}"):
            return
        if self.waiting:
            self.settled.update(self.ended_before)
            self.ended_before = self.waiting[1]
        notes = [note_of(line) for line in lines_of(f"{self.place}/done", self.notes_from)]
        ended = [note.command for note in notes if note.mark == "end" and note.server == server.number and has_gone(note.pid)]
        self.count += 1
        ip = probe_address(self.count)
        fail(self.place, "probe", ip)
        self.waiting = ip, ended


def run(program, place, kills, numbers):
    """Kills so many servers, and gives what they said, by their numbers, with which ones ended by themselves, and what was settled."""
    load, probes = Load(place, numbers), Probes(place)
    said, others, settled = [], [], []
    to_ready = 1
    load.start()
    for number in range(kills):
        probes.begin()
        begin = time.monotonic()
        server = Server(program, place, number)
        if number > 0 and numbers.random() < 0.25:
            # Some are killed while they start.
            end = begin + to_ready * numbers.random()
        else:
            while not server.has_said("INFO Server ready") and server.process.poll() is None:
                time.sleep(0.005)
            to_ready = time.monotonic() - begin
            # Where the machine is slow a server is longer at work.
            end = time.monotonic() + max(AT_WORK, to_ready) * numbers.random()
        while time.monotonic() < end and server.process.poll() is None:
            probes.step(server)
            time.sleep(min(0.05, max(0, end - time.monotonic())))
        server.process.send_signal(signal.SIGKILL)
        status = server.process.wait()
        if status != -signal.SIGKILL:
            others.append((number, status, lines_of(server.said_in)[-1:]))
        said.append(server.said())
        settled.append(set(probes.settled))
        os.remove(server.said_in)
        if number % 20 == 19:
            print(f"{number + 1} kills ..", file=sys.stderr, flush=True)
    load.stopped.set()
    load.join()
    said.append(finish(program, place, kills, max(10, 5 * to_ready), others))
    return said, others, settled, load.written


def generation(slot):
    """Which generation a slot of the journal has; 0 where it is not there. They rise by one with each change of slots."""
    if not os.path.exists(slot):
        return 0
    with open(slot, "rb") as file:
        return int.from_bytes(file.read(9)[1:], "big")


def finish(program, place, number, quiet, others):
    """The last server goes on until for so many seconds nothing was said or begun, and is ended."""
    server = Server(program, place, number)
    end = time.monotonic() + PATIENCE
    last, since = None, time.monotonic()
    while time.monotonic() < min(end, since + quiet):
        time.sleep(0.1)
        seen = size(server.said_in), size(f"{place}/done")
        if seen != last or not server.has_said("INFO Server ready"):
            last, since = seen, time.monotonic()
        if server.process.poll() is not None:
            others.append((number, server.process.returncode, lines_of(server.said_in)[-1:]))
            break
    server.process.kill()
    server.process.wait()
    return server.said()


def bans_said(said):
    """The bans that were said, by jail and address: the moments at which they began."""
    bans = collections.defaultdict(list)
    for second, jail, what, ip in lines_about(said):
        if what == "Ban":
            bans[jail, ip].append(second)
    return bans


def lines_about(said):
    for lines in said:
        for second, text in lines:
            words = text.split(" ")
            if len(words) == 4 and words[1] != "[probe]":
                yield second, words[1][1:-1], words[2], words[3]


def lost_bans(said, notes):
    """The bans that were said and then were none, and why."""
    bans = bans_said(said)
    # A ban whose line was not said any more is known by its command.
    known = collections.defaultdict(set)
    for key, begins in bans.items():
        known[key].update(begins)
    lifted = set()
    for note in notes:
        if note.command.kind == "ban":
            known[note.command.jail, note.command.ip].add(note.command.begin)
        elif note.command.kind == "unban" and note.mark == "end":
            lifted.add((note.command.jail, note.command.ip, note.command.begin))
    lost = {}
    for (jail, ip), begins in bans.items():
        for begin in begins:
            if begins.count(begin) > 1:
                lost[jail, ip, begin] = "said twice"
            if any(begin < other < begin + BANTIME for other in known[jail, ip]):
                lost[jail, ip, begin] = "banned once more meanwhile"
            if (jail, ip, begin) not in lifted:
                lost[jail, ip, begin] = "never lifted"
    for second, jail, what, ip in lines_about(said):
        for begin in bans.get((jail, ip), []):
            if what == "Found" and begin < second < begin + BANTIME:
                lost[jail, ip, begin] = "a failure was counted meanwhile"
            if what == "Unban" and begin < second < begin + BANTIME:
                lost[jail, ip, begin] = "lifted too soon"
    return lost


def run_again(notes, settled):
    """The commands that were run once more after they were settled."""
    again = []
    # A jail has one action here, and so one lane.
    lanes = collections.defaultdict(list)
    for note in notes:
        if note.mark == "begin":
            lanes[note.command.jail].append(note)
    for lane in lanes.values():
        # A server starts the commands of a lane one behind the other. What one that was killed had started may note its beginning late.
        lane.sort(key=lambda note: note.server)
        place = {}
        for at, note in enumerate(lane):
            if note.command in place and any(other.command != note.command for other in lane[place[note.command] : at]):
                again.append((note, "its lane had gone on"))
            place.setdefault(note.command, at)
    for note in notes:
        # What was settled as the last server before this one was killed.
        if note.mark == "begin" and note.server > 0 and note.command in settled[note.server - 1]:
            again.append((note, "it had ended two turns before"))
    return again


def missing_commands(said, notes, written):
    """What was not done that had to be done."""
    ended = {note.command for note in notes if note.mark == "end"}
    missing = [("start", number) for number in range(JAILS) if Command("start", f"jail{number}", "", 0) not in ended]
    bans = {(command.jail, command.ip, command.begin) for command in ended if command.kind == "ban"}
    for (jail, ip), begins in bans_said(said).items():
        missing += [("ban", jail, ip, begin) for begin in begins if (jail, ip, begin) not in bans]
    missing += [("unban", *ban) for ban in bans if Command("unban", *ban) not in ended]
    banned = {ban[:2] for ban in bans}
    missing += [("a ban", number, ip) for number in range(JAILS) for ip in written[number] if (f"jail{number}", ip) not in banned]
    order = {}
    for at, note in enumerate(notes):
        order.setdefault((note.mark, note.command), at)
    for ban in bans:
        first, then = order[("end", Command("ban", *ban))], order.get(("begin", Command("unban", *ban)), len(notes))
        if then < first:
            missing.append(("a ban before its end", *ban))
    return missing


def main(program, kills=200, seed=1):
    with tempfile.TemporaryDirectory(prefix="fail2ban-kill-") as place:
        configure(place)
        begin = time.monotonic()
        said, others, settled, written = run(program, place, kills, random.Random(seed))
        notes = [note_of(line) for line in lines_of(f"{place}/done")]
        errors = lines_of(f"{place}/errors")
        took = time.monotonic() - begin
        changes = max(generation(f"{place}/run/journal.{slot}") for slot in range(2)) - 1
    lost, again, missing = lost_bans(said, notes), run_again(notes, settled), missing_commands(said, notes, written)
    began = [note.command for note in notes if note.mark == "begin"]
    bans = sum(len(begins) for begins in bans_said(said).values())
    servers = {note.server for note in notes}
    print(f"{kills} kills in {took:.0f} s, seed {seed}: {sum(map(len, written)):,} addresses failed, {bans:,} bans said, {len(began):,} commands begun")
    print(f"of them run again, which may be: {len(began) - len(set(began))}; known to be settled by a later turn: {len(settled[-1]):,}")
    ready = sum(any(text == "INFO Server ready" for _second, text in lines) for lines in said[:-1])
    print(f"servers that said they were ready before they were killed: {ready}; that began commands: {len(servers)}; changes of slots: {changes}")
    rows = [("bans said and lost", lost), ("settled commands run again", again), ("commands missing", missing), ("other statuses", others)]
    rows.append(("lines on standard error", errors))
    for what, found in rows:
        print(f"{what:28} {len(found):6}")
    for what, found in rows:
        for one in list(found.items() if isinstance(found, dict) else found)[:5]:
            print(f"{what}: {one}")
    return 1 if any(found for _what, found in rows) else 0


if __name__ == "__main__":
    if len(sys.argv) not in (2, 3, 4):
        sys.exit(__doc__)
    sys.exit(main(os.path.abspath(sys.argv[1]), *map(int, sys.argv[2:])))
