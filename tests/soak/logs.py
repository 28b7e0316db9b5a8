"""The logs of the jails: what stands in them, how they are rotated, and who writes there meanwhile."""

import heapq
import os
import random
import shutil
import threading
import time

# So long a line may be that is searched, how many seconds a ban is over before its address fails again, and how many bans may wait for their commands.
LONGEST = 65_536
OVER = 3
MOST_OWED = 100


def syslog(moment, text):
    return time.strftime("%b %e %H:%M:%S host ", time.gmtime(moment)) + text


def sshd(ip, moment, name="root"):
    """A wrong password, as OpenSSH's server says it."""
    return syslog(moment, f"sshd[77]: Failed password for {name} from {ip} port 4022 ssh2")


def web(ip, moment, name="ann"):
    """A wrong password, as nginx says it."""
    return time.strftime(f'{ip} - {name} [%d/%b/%Y:%H:%M:%S +0000] "GET / HTTP/1.1" 401 179 "-" "-"', time.gmtime(moment))


def mail(ip, moment, name="bob"):
    """A wrong password, as Dovecot says it."""
    text = f"dovecot: imap-login: Disconnected (auth failed, 1 attempts in 4 secs): user=<{name}>, method=PLAIN, rip={ip}, lip=192.0.2.1"
    return syslog(moment, text)


# The line of a failure in each jail, and a name that looks as if another address had failed.
FAILURES = {"sshd": sshd, "web": web, "mail": mail}
FORGED = {
    "sshd": "invalid user x from {ip} port 22 ssh2",
    "web": "x [401] from {ip} - x",
    "mail": "x>, method=PLAIN, rip={ip}, lip=192.0.2.1",
}


class Log:
    """The logs of a jail, of which the last one is written to. All of this is called by whoever holds the jail's lock."""

    def __init__(self, place, jail):
        self.place, self.jail = place, jail
        self.count, self.heads, self.lines = 0, 0, 0
        self.paths = []
        self.add()

    def add(self):
        """Another log, at a path that was never used."""
        self.count += 1
        self.paths.append(f"{self.place}/{self.jail.name}-{self.count}.log")
        self.head()

    def head(self):
        """The first line of a log, which no other log has."""
        self.heads += 1
        self.write(f"log {self.heads} of {self.jail.name} begins\n".encode())

    def write(self, data):
        """Writes bytes in one call."""
        with open(self.paths[-1], "ab", buffering=0) as file:
            file.write(data)
        self.lines += data.count(b"\n")

    def line(self, ip, moment=None, **more):
        return FAILURES[self.jail.name](ip, int(time.time() if moment is None else moment), **more).encode() + b"\n"

    def fail(self, ip, times=1):
        """Writes so many failures, which are found for certain."""
        self.write(self.line(ip) * times)
        self.jail.fails(ip, times)

    def rotate(self, by_copy):
        """Has another log stand at the last path: the old one is moved away, or copied and cut."""
        path = self.paths[-1]
        if by_copy:
            shutil.copy(path, path + ".old")
            os.truncate(path, 0)
        else:
            os.rename(path, path + ".old")
        self.head()


class Writer(threading.Thread):
    """Writes to all logs until it is stopped: addresses that fail, each in one of many ways, and lines of any kind beside them."""

    def __init__(self, logs, numbers, rate, notes, fault):
        super().__init__(daemon=True)
        self.logs, self.numbers, self.rate, self.notes, self.fault = logs, numbers, rate, notes, fault
        self.stopped = threading.Event()
        self.waiting, self.count = [], 0

    def run(self):
        try:
            while not self.stopped.is_set():
                self.step()
        except Exception as why:
            self.fault(f"the writer: {why!r}")
            raise

    def step(self):
        """Goes on with each address whose time has come, begins with another one, and writes other lines, as fast as the commands keep up."""
        if self.notes.owed([log.jail for log in self.logs]) > MOST_OWED:
            self.stopped.wait(0.5)
            return
        log = self.numbers.choice(self.logs)
        (way,) = self.numbers.choices(list(WAYS), list(WAYS.values()))
        self.go_on(way(self, log, self.numbers))
        while self.waiting and self.waiting[0][0] <= time.monotonic():
            self.go_on(heapq.heappop(self.waiting)[2])
        with log.jail.lock:
            log.write(noise(self.numbers))
        self.stopped.wait(self.numbers.expovariate(self.rate))

    def go_on(self, story):
        """Lets an address do what it does next; it says for how many seconds it waits then."""
        pause = next(story, None)
        if pause is not None:
            self.count += 1
            heapq.heappush(self.waiting, (time.monotonic() + pause, self.count, story))


def noise(numbers):
    """Lines that are no failures: of other programs, and bytes of any kind."""
    lines = []
    for _ in range(numbers.randrange(12)):
        kind = numbers.randrange(4)
        if kind == 0:
            lines.append(numbers.randbytes(numbers.randrange(200)).replace(b"\n", b""))
        elif kind == 1:
            lines.append(syslog(time.time(), f"cron[{numbers.randrange(9_999)}]: session opened for user root").encode())
        elif kind == 2:
            lines.append(syslog(time.time(), "sshd[77]: Accepted password for ann from 192.0.2.77 port 4022 ssh2").encode())
        else:
            lines.append(b'192.0.2.78 - - [01/Mar/2024:10:00:00 +0000] "GET / HTTP/1.1" 200 179 "-" "-"')
    return b"".join(line + b"\n" for line in lines)


def family(numbers):
    return numbers.choice([4, 4, 6])


# ---- what an address does. Between two steps it waits for as many seconds as it gives


def banned(writer, log, numbers):
    """Fails often enough at once."""
    with log.jail.lock:
        log.fail(log.jail.fresh(family(numbers)), log.jail.maxretry)
    yield from ()


def slow(writer, log, numbers):
    """Fails now and then, until it is banned."""
    jail, ip = log.jail, log.jail.fresh(family(numbers))
    while True:
        with jail.lock:
            log.fail(ip)
            if jail.addresses[ip].banned:
                return
        yield numbers.uniform(0.1, 4)


def spared(writer, log, numbers):
    """Fails too rarely."""
    with log.jail.lock:
        log.fail(log.jail.fresh(family(numbers)), numbers.randrange(1, log.jail.maxretry))
    yield from ()


def ignored(writer, log, numbers):
    """Fails often, but is never banned."""
    with log.jail.lock:
        log.write(log.line(numbers.choice(["127.0.0.1", "192.0.2.9", "2001:db8:ffff::7", "::1"])) * 9)
    yield from ()


def forged(writer, log, numbers):
    """Fails with names that look as if another one had failed."""
    with log.jail.lock:
        ip, other = log.jail.fresh(), log.jail.fresh()
        log.write(log.line(ip, name=FORGED[log.jail.name].format(ip=other)) * log.jail.maxretry)
        log.jail.fails(ip, log.jail.maxretry)
    yield from ()


def dated(writer, log, numbers):
    """Fails long ago, which does not count, or in an hour, which counts as now."""
    with log.jail.lock:
        log.write(log.line(log.jail.fresh(), time.time() - 2 * 86_400) * 9)
        ip, times = log.jail.fresh(), log.jail.maxretry
        log.write(log.line(ip, time.time() + 3_600) * times)
        log.jail.fails(ip, times)
    yield from ()


def halves(writer, log, numbers):
    """Fails in lines that come in pieces."""
    with log.jail.lock:
        ip, times = log.jail.fresh(family(numbers)), numbers.randrange(1, log.jail.maxretry + 1)
        lines = log.line(ip) * times
        place = numbers.randrange(1, len(lines))
        log.write(lines[:place])
        time.sleep(numbers.uniform(0, 0.3))
        log.write(lines[place:])
        log.jail.fails(ip, times)
    yield from ()


def long(writer, log, numbers):
    """Fails in lines that are just short enough, and in ones that are too long."""
    with log.jail.lock:
        for length in [LONGEST, LONGEST + 1, numbers.randrange(LONGEST + 1, 5 * LONGEST)]:
            ip, times = log.jail.fresh(), log.jail.maxretry
            room = length - len(log.line(ip, name="")) + 1
            log.write(log.line(ip, name="N" * room) * times)
            if length == LONGEST:
                log.jail.fails(ip, times)
    yield from ()


def strange(writer, log, numbers):
    """Fails in lines with bytes that are no text, and with a CR at their end."""
    with log.jail.lock:
        ip, times = log.jail.fresh(family(numbers)), log.jail.maxretry
        line = log.line(ip, name="NAME").replace(b"NAME", b"a\0\xff\xfe b\xc3\xe2\x82")
        log.write(line.replace(b"\n", b"\r\n") * times)
        log.jail.fails(ip, times)
    yield from ()


def twice(writer, log, numbers):
    """Where bans are short, fails again behind each of them."""
    jail, ip = log.jail, log.jail.fresh(family(numbers))
    for _ in range(numbers.randrange(1, 4)):
        with jail.lock:
            log.fail(ip, jail.maxretry)
        if not jail.is_brief():
            return
        while not writer.notes.is_over(jail, ip, OVER):
            yield 0.5
        with jail.lock:
            jail.lets_in(ip)


# How often an address does so.
WAYS = {banned: 20, slow: 24, spared: 12, ignored: 4, forged: 6, dated: 4, halves: 12, long: 2, strange: 6, twice: 10}
