"""An hour's traffic in some minutes over the real programs: logs that are rotated, servers that are killed, reloads, and clients.

    python3 tests/soak SERVER CLIENT [SEED [MINUTES]]

Three jails with filters that ship follow logs to which addresses fail in many ways. Meanwhile servers are killed and started over what the last one
kept, the configuration is read again as another one, or as one that is refused, logs are rotated, and three clients ask, ban and let in. What has
to come of it is told by model.py, which knows what was written and asked for, and not what a server says. In the end these have to agree with it
and with one another: the lists and counts of `status`, the same behind one more kill and start, and whom the commands of the actions keep out.

All that is random comes of the seed, which is printed: what is written, asked for and done, and when. What of it comes first on a busy machine does
not. Where timing leaves it open what a server saw, either is right, but the three have to agree all the same. The last quarter of the time is one
server's, which has to take no more memory in its end than one that was just started, and no file more than the first one.

It prints a table and exits with 1 where something does not agree; then the folder is kept.
"""

import contextlib
import os
import random
import shutil
import sys
import tempfile
import time

import agree
from askers import Asker, ByMany, ByOne, ByProgram, Connection, ask_once, request
from firewall import Notes
from logs import Log, Writer
from model import Jail
from service import PATIENCE, REFUSED, Configuration, Server, Stopped, changes

# How often things are done in a minute, and stories of addresses begun and requests made in a second.
KILLS, RELOADS, ROTATIONS, EMPTIED = 10, 4, 8, 2
STORIES, REQUESTS = 8, 5

# The part of the time in which servers are killed.
KILLED = 0.75

# How many KiB a server may have more in its end than one that was just started over the same state: a reload has two configurations in memory at once.
SLACK = 16_384


class Soak:
    """All that there is in a run."""

    def __init__(self, program, client, place, seed):
        self.program, self.client, self.place, self.seed = program, client, place, seed
        self.jails = [Jail(1, "sshd", 3, 3_600), Jail(2, "web", 2, 6, grows=True), Jail(3, "mail", 4, -1)]
        self.logs = [Log(place, jail) for jail in self.jails]
        self.conf = Configuration(place, self.logs)
        self.socket = f"{place}/run/fail2ban.sock"
        # How many files the first server had open.
        self.files = 0
        self.notes, self.faults, self.servers = Notes(place), [], []
        self.numbers = self.random("plan")
        self.done = {name: 0 for name in ["kills", "reloads", "refused", "rotations", "emptied"]}
        self.askers = [
            Asker(self.jails[0], ByOne(self.socket), self.random("first"), REQUESTS, self.fault),
            Asker(self.jails[1], ByMany(self.socket, self.random("manners"), self.fault), self.random("second"), REQUESTS, self.fault),
            Asker(self.jails[2], ByProgram(self.socket, client), self.random("third"), REQUESTS, self.fault),
        ]
        self.writer = Writer(self.logs, self.random("writer"), STORIES, self.notes, self.fault)

    def random(self, what):
        return random.Random(f"{self.seed} {what}")

    def fault(self, text):
        self.faults.append(text)

    # ---- servers

    def start(self):
        self.servers.append(Server(self.program, self.place, len(self.servers)))

    def server(self):
        return self.servers[-1]

    def ready(self):
        self.server().wait_said("INFO Server ready")

    def has_begun(self):
        """Whether each action has started, and no command runs."""
        self.notes.look()
        return len(self.notes.notes) >= len(self.jails) and not self.server().children()

    def ask(self, *words):
        return ask_once(self.socket, *words)

    def see(self, log):
        """Waits until all was read that stands in the log. The caller holds the jail's lock, and kills no server meanwhile."""
        ip = log.jail.fresh()
        log.fail(ip)
        self.server().wait_said(f"INFO [{log.jail.name}] Found {ip}")

    # ---- what is done to them

    def plan(self, minutes):
        """What is done, and when: while servers are killed, and then by the last one."""
        kills = [self.kill, self.kill, self.kill, self.kill_twice, self.kill_and_rotate, self.kill_in_a_reload]
        changes = [self.another_action, self.another_maxretry, self.another_log, self.refused, self.nothing_new]
        # One of six kills two servers.
        events = [(kills[number % len(kills)], 0) for number in range(round(KILLS * minutes * 6 / 7))]
        for number in range(round(RELOADS * minutes)):
            events.append((changes[number % len(changes)], self.numbers.random() > KILLED))
        events += [(self.rotate, self.numbers.random() > KILLED) for _ in range(round(ROTATIONS * minutes))]
        events += [(self.empty, self.numbers.random() > KILLED) for _ in range(round(EMPTIED * minutes))]
        self.numbers.shuffle(events)
        return [[event for event, part in events if part == wanted] for wanted in (0, 1)]

    def killed(self):
        self.server().kill()
        self.done["kills"] += 1

    def kill(self):
        """Kills the server, and starts the next one while lines are written on."""
        self.killed()
        time.sleep(self.numbers.choice([0, self.numbers.uniform(0, 1)]))
        self.start()
        self.ready()

    def kill_twice(self):
        """Kills the server, and the next one while it starts."""
        self.killed()
        self.start()
        time.sleep(self.numbers.uniform(0, 0.3))
        self.killed()
        self.start()
        self.ready()

    def kill_and_rotate(self):
        """Rotates a log while no server runs: what was written to it meanwhile is lost."""
        log = self.numbers.choice(self.logs)
        with log.jail.lock:
            self.see(log)
            self.killed()
            log.write(log.line(log.jail.fresh()) * 9)
            self.rotated(log)
            log.fail(log.jail.fresh(), log.jail.maxretry)
        self.start()
        self.ready()

    def kill_in_a_reload(self):
        """Kills the server while it reads another configuration: if it has not taken that, the next one does."""
        log = self.numbers.choice(self.logs)
        with log.jail.lock:
            self.see(log)
            maxretry = self.change(log)
            conn = Connection(self.socket)
            conn.send(request("reload"))
            time.sleep(self.numbers.uniform(0, 0.2))
            self.killed()
            conn.close()
            self.start()
            self.ready()
            log.jail.takes(maxretry)

    def rotated(self, log):
        log.rotate(by_copy=self.numbers.random() < 0.5)
        self.done["rotations"] += 1

    def rotate(self):
        """Rotates a log of which all was read; now and then one into which something was written right before, which may be lost."""
        log = self.numbers.choice(self.logs)
        with log.jail.lock:
            self.see(log)
            if self.numbers.random() < 0.4:
                ip, times = log.jail.fresh(), self.numbers.randrange(1, log.jail.maxretry + 1)
                log.write(log.line(ip) * times + log.line(log.jail.fresh())[:40])
                log.jail.may_fail(ip, times)
            self.rotated(log)

    def empty(self):
        """Empties the firewall of the jail whose action has a check: it starts anew at its next command."""
        with open(f"{self.place}/emptied-mail", "w"):
            self.done["emptied"] += 1

    # ---- reloads

    def change(self, log):
        """Writes a configuration in which a jail has another action, and perhaps bans for another number of failures, which it gives."""
        name = log.jail.name
        self.conf.versions[name] += 1
        if self.numbers.random() < 0.5:
            self.conf.maxretry[name] = self.numbers.randrange(2, 6)
        self.conf.write()
        return self.conf.maxretry[name]

    def reload(self, reply="OK", status=0):
        said = self.ask("reload")
        self.done["refused" if status else "reloads"] += 1
        if said != (status, reply):
            self.fault(f"a reload is replied {said}, and not {reply!r}")

    def another_action(self):
        log = self.numbers.choice(self.logs)
        self.conf.versions[log.jail.name] += 1
        self.conf.write()
        self.reload()

    def another_maxretry(self):
        """Bans for another number of failures: those that were counted are forgotten. What was written has to be read by then."""
        log = self.numbers.choice(self.logs)
        with log.jail.lock:
            self.see(log)
            jail = log.jail
            self.conf.maxretry[jail.name] = maxretry = self.numbers.choice([number for number in range(2, 6) if number != jail.maxretry])
            self.conf.write()
            self.reload()
            jail.takes(maxretry)

    def another_log(self):
        """Has a jail follow another log, which is read from its beginning. That of a wildcard follows the old one too, for a while."""
        log = self.numbers.choice(self.logs)
        with log.jail.lock:
            self.see(log)
            old = list(log.paths)
            log.add()
            log.fail(log.jail.fresh(), log.jail.maxretry)
            if log.jail.name == "mail" and len(old) < 3:
                old = []
            log.paths = [path for path in log.paths if path not in old]
            for path in old:
                os.remove(path)
            self.conf.write()
            self.reload()

    def refused(self):
        """Has the server read what is refused, which changes nothing."""
        text, why = self.numbers.choice(REFUSED)
        self.conf.put("jail.local", text)
        self.reload(why, 1)
        os.remove(f"{self.place}/conf/jail.local")

    def nothing_new(self):
        self.reload()

    # ---- the run

    def run(self, minutes):
        """Does all that is planned, and gives what was seen of the machine's memory in the last part."""
        early, late = self.plan(minutes)
        self.part(early, KILLED * minutes * 60)
        seen = self.part(late, (1 - KILLED) * minutes * 60)
        for thread in [self.writer, *self.askers]:
            thread.stopped.set()
            thread.join()
        for log in self.logs:
            with log.jail.lock:
                self.see(log)
        return seen

    def part(self, events, seconds):
        """Does all this within so many seconds, or longer where the machine is slow, and gives what memory the server had now and then."""
        begin, seen = time.monotonic(), []
        moments = sorted(self.numbers.uniform(0, seconds) for _ in events) + [seconds]
        for moment, event in zip(moments, [*events, lambda: None]):
            # Each server is at work for a while.
            end = max(begin + moment, time.monotonic() + self.numbers.random())
            while time.monotonic() < end:
                self.look(seen)
                time.sleep(0.1)
            event()
        return seen

    def look(self, seen):
        """Reads what the commands noted, and looks each second what memory the server has."""
        self.notes.look()
        if not seen or time.monotonic() > seen[-1][0] + 1:
            self.server().runs()
            seen.append((time.monotonic(), *self.server().memory()))

    # ---- its end

    def starts_again(self):
        """Kills the last server and starts one over what it kept, which has to say the same and to run nothing. Gives its files and its memory."""
        before = [agree.status_of(self, jail) for jail in self.jails]
        self.killed()
        self.notes.look()
        ran = len(self.notes.notes)
        self.start()
        self.ready()
        time.sleep(2)
        for old, jail in zip(before, self.jails):
            new = agree.status_of(self, jail)
            if new != old:
                self.fault(f"{jail.name}: behind a start status is {new}, and not {old}")
        self.notes.look()
        if len(self.notes.notes) != ran:
            self.fault(f"a start runs {self.notes.notes[ran:][:3]}")
        return self.taken()

    def taken(self):
        """How many files the server has open once all clients are gone, and how many KiB of memory it has."""
        server = self.server()
        with contextlib.suppress(Stopped):
            server.wait_for(lambda: server.files() == self.files, "no file more than at first")
        return server.files(), server.memory()[0]

    def stops(self):
        """Stops the last server, which takes back all that its commands did."""
        if self.ask("stop") != (0, "Shutdown begun"):
            self.fault("a stop is not replied")
        process, last, end = self.server().process, None, 0
        while process.poll() is None and (self.notes.read != last or time.monotonic() < end):
            if self.notes.read != last:
                last, end = self.notes.read, time.monotonic() + PATIENCE
            time.sleep(0.1)
            self.notes.look()
        if process.returncode != 0:
            self.fault(f"a stop ends with {process.returncode}")
        self.notes.look()
        for jail in self.jails:
            firewall = agree.kept_out(self, jail)
            self.faults += [f"{jail.name}: {fault}" for fault in firewall.faults]
            if firewall.kept_out or firewall.version is not None:
                self.fault(f"{jail.name}: behind a stop {len(firewall.kept_out)} are kept out, and the action's version is {firewall.version}")
        if os.path.lexists(self.socket):
            self.fault("behind a stop the socket is there")


def whole(soak, minutes):
    """A run from its start to its end, which prints what it came to."""
    begin = time.monotonic()
    soak.start()
    soak.ready()
    soak.server().wait_for(soak.has_begun, "the start of the actions")
    soak.files = soak.server().files()
    first = soak.taken()
    for thread in [soak.writer, *soak.askers]:
        thread.start()
    seen = soak.run(minutes)
    agree.wait_quiet(soak, PATIENCE)
    last = soak.taken()
    rows = [agree.of_jail(soak, jail) for jail in soak.jails]
    again = soak.starts_again()
    soak.stops()
    lines = agree.lines_hold(soak)
    if not first[0] == last[0] == again[0]:
        soak.fault(f"files that are open: {first[0]} at first, {last[0]} in the end, {again[0]} behind a start")
    if last[1] > again[1] + SLACK:
        soak.fault(f"KiB of memory: {last[1]} in the end, {again[1]} behind a start over the same")
    with open(f"{soak.place}/errors", "rb") as file:
        soak.faults += [f"standard error: {line!r}" for line in file.read().splitlines()[:5]]
    report(soak, time.monotonic() - begin, rows, lines, (first, last, again), seen)


def report(soak, took, rows, lines, taken, seen):
    """Prints what was done, whom each jail bans, and what the servers took of the machine."""
    written, asked, unheard = (
        sum(counts) for counts in [[log.lines for log in soak.logs], [each.asked for each in soak.askers], [each.unheard for each in soak.askers]]
    )
    done = ", ".join(f"{count} {what}" for what, count in soak.done.items())
    print(f"{took:.0f} s: {written:,} lines written, {lines:,} said of them, {asked:,} requests of clients, {unheard:,} of them without a reply")
    print(f"{done}, {changes(soak.place)} changes of slots, {len(soak.notes.notes):,} commands")
    print("| jail | has to ban | and may | `status` has | kept out | failures counted | bans begun | commands run again |")
    print("|---|---|---|---|---|---|---|---|")
    for row in rows:
        print("| " + " | ".join(map(str, row)) + " |")
    print("| | at first | in the end | behind a start over the same |\n|---|---|---|---|")
    for what, counts in zip(["open files", "KiB of memory"], zip(*taken)):
        print(f"| {what} | " + " | ".join(f"{count:,}" for count in counts) + " |")
    print(f"the last server had {seen[0][1]:,} KiB as its part began, {seen[-1][1]:,} as it ended, and {seen[-1][2]:,} at most")


def main(program, client, seed=None, minutes="5"):
    seed = seed or str(random.randrange(1_000_000))
    print(f"seed {seed}, {minutes} minutes", flush=True)
    place = tempfile.mkdtemp(prefix="fail2ban-soak-")
    soak = Soak(program, client, place, seed)
    try:
        whole(soak, float(minutes))
    except Stopped as why:
        soak.fault(str(why))
    finally:
        with contextlib.suppress(Stopped, IndexError):
            soak.server().kill()
    for fault in soak.faults[:20]:
        print(f"DISAGREES: {fault}")
    print(f"soak: {len(soak.faults)} disagreements" + (f", and what there is of them in {place}" if soak.faults else ""))
    if not soak.faults:
        shutil.rmtree(place)
    return 1 if soak.faults else 0


if __name__ == "__main__":
    if len(sys.argv) not in (3, 4, 5):
        sys.exit(__doc__)
    sys.exit(main(*map(os.path.abspath, sys.argv[1:3]), *sys.argv[3:]))
