"""Clients that ask, ban and let in while the servers are killed: each of them knows what it has to hear of the addresses that are its own."""

import os
import socket
import subprocess
import threading
import time

# How many seconds a client waits for a reply on a busy machine.
PATIENCE = 180

# For so many seconds the client's program waits for a server that says nothing, and then ends as where none is there.
SILENCE = 29

# So often a client bans one address, since each ban may last twice as long as the last one.
MOST_BANS = 4

# What is no request, and how it is refused.
GARBAGE = [b"\xff\xff\xff\xff", b"\0\1\0\1", b"\0\0\0\0", b"\0\0\0\1\t", b"GET / HTTP/1.1\r\n\r\n"]
REFUSALS = [b"Frame too long", b"Frame too long", b"Empty frame", b"Bad word", b"Frame too long"]


class Unheard(Exception):
    """No reply came: the server was killed. What was asked for may be done."""


class Unreached(Unheard):
    """There is no server. Nothing was asked for."""


def request(*words):
    body = b"".join(len(word).to_bytes(2, "big") + word.encode() for word in words)
    return len(body).to_bytes(4, "big") + body


class Connection:
    """One connection to the server, over which requests are answered one after the other."""

    def __init__(self, path):
        self.conn = socket.socket(socket.AF_UNIX)
        self.conn.settimeout(PATIENCE)
        try:
            self.conn.connect(path)
        except OSError as why:
            self.conn.close()
            raise Unreached from why

    def send(self, data):
        try:
            self.conn.sendall(data)
        except OSError as why:
            raise Unheard from why

    def receive(self, count):
        data = b""
        while len(data) < count:
            try:
                piece = self.conn.recv(count - len(data))
            except ConnectionError as why:
                raise Unheard from why
            if not piece:
                raise Unheard
            data += piece
        return data

    def hear(self):
        body = self.receive(int.from_bytes(self.receive(4), "big"))
        return body[0], body[1:].decode()

    def close(self):
        self.conn.close()


def ask_once(path, *words):
    """Asks over a connection of its own, and gives the status and the reply."""
    conn = Connection(path)
    try:
        conn.send(request(*words))
        return conn.hear()
    finally:
        conn.close()


class ByOne:
    """Asks over one connection for as long as it lasts."""

    def __init__(self, path):
        self.path, self.conn = path, None

    def ask(self, *words):
        try:
            if self.conn is None:
                self.conn = Connection(self.path)
            self.conn.send(request(*words))
            return self.conn.hear()
        except Unheard:
            self.close()
            raise

    def close(self):
        if self.conn is not None:
            self.conn.close()
        self.conn = None


class ByMany:
    """Asks over a connection of its own each time. Some leave in the middle of a request, or before they have their reply, or send what is none."""

    def __init__(self, path, numbers, fault):
        self.path, self.numbers, self.fault = path, numbers, fault

    def ask(self, *words):
        self.misbehave()
        conn = Connection(self.path)
        try:
            data, place = request(*words), self.numbers.randrange(4)
            conn.send(data[:place])
            conn.send(data[place:])
            return conn.hear()
        finally:
            conn.close()

    def misbehave(self):
        kind = self.numbers.randrange(8)
        if kind > 2:
            return
        conn = Connection(self.path)
        try:
            if kind == 0:
                conn.send(request("status", "--all")[: self.numbers.randrange(20)])
            elif kind == 1:
                conn.send(request("status", "--all") * self.numbers.randrange(1, 50))
            else:
                number = self.numbers.randrange(len(GARBAGE))
                conn.send(GARBAGE[number] + request("ping"))
                heard = conn.hear()
                if heard != (1, REFUSALS[number].decode()):
                    self.fault(f"{GARBAGE[number]!r} is replied {heard}")
        finally:
            conn.close()

    def close(self):
        pass


class ByProgram:
    """Asks by the client's program."""

    def __init__(self, path, program):
        self.path, self.program = path, program

    def ask(self, *words):
        begin = time.monotonic()
        done = subprocess.run([self.program, "-s", self.path, *words], stdin=subprocess.DEVNULL, capture_output=True, timeout=PATIENCE, check=False)
        if done.returncode == 8 and time.monotonic() < begin + SILENCE:
            raise Unreached
        if done.returncode in (8, 13):
            raise Unheard
        return done.returncode, done.stdout.decode().removesuffix("\n")

    def close(self):
        pass


class Asker(threading.Thread):
    """Asks until it is stopped. It bans, lets in and lets fail addresses of one jail, and asks who is banned."""

    def __init__(self, jail, way, numbers, rate, fault):
        super().__init__(daemon=True)
        self.jail, self.way, self.numbers, self.rate, self.fault_of = jail, way, numbers, rate, fault
        self.stopped = threading.Event()
        # Its own addresses of which it knows whether they are banned, those that failed before they were, and how often it asked.
        self.known, self.failed, self.asked, self.unheard = [], [], 0, 0

    def fault(self, text):
        self.fault_of(f"a client of {self.jail.name}: {text}")

    def run(self):
        asks = [self.ping, self.status, self.banned, self.all_banned, self.ban, self.ban, self.unban, self.unban, self.attempt, self.attempt, self.wrong]
        try:
            while not self.stopped.wait(self.numbers.expovariate(self.rate)):
                self.asked += 1
                try:
                    self.numbers.choice(asks)()
                except Unheard:
                    self.unheard += 1
        except Exception as why:
            self.fault(f"ends: {why!r}")
            raise
        finally:
            self.way.close()

    def wants(self, reply, *words, status=0):
        """Asks, and wants one of these replies."""
        heard = self.way.ask(*words)
        if heard[0] != status or heard[1] not in reply:
            self.fault(f"{words} is replied {heard}, and not {reply}")
        return heard[1]

    def ping(self):
        self.wants(["pong", "Server replied: pong"], "ping")

    def wrong(self):
        words, refusal = self.numbers.choice(
            [
                (("sett",), "Invalid command"),
                (("set", self.jail.name, "banip", "192.0.2"), "Bad address: word 4"),
                (("status", "none"), "Sorry but the jail 'none' does not exist"),
                (("set", self.jail.name, "findtime", "5q"), "Bad number"),
            ]
        )
        self.wants([refusal], *words, status=1)

    def status(self):
        status, text = self.way.ask("status", self.jail.name)
        lines = text.split("\n")
        if status or len(lines) != 9 or lines[0] != f"Status for the jail: {self.jail.name}":
            self.fault(f"status is replied {text!r}")

    def sure(self):
        """Those of its addresses of which it is known whether they are banned whatever time it is."""
        return [ip for ip in self.known if not (self.jail.is_brief() and self.jail.addresses[ip].banned)]

    def banned(self):
        """Some of its addresses are banned where it knows, and nowhere else."""
        sure = self.sure()
        some = self.numbers.sample(sure, min(len(sure), 20))
        if some:
            name = self.jail.name
            self.wants(["\n".join(f"{ip}:{' ' + name if self.jail.addresses[ip].banned else ''}" for ip in some)], "banned", *some)

    def all_banned(self):
        _, text = self.way.ask("get", self.jail.name, "banip")
        listed = text.split("\n")
        for ip in self.sure():
            if self.jail.addresses[ip].banned != (ip in listed):
                self.fault(f"{ip} is {'not ' if self.jail.addresses[ip].banned else ''}banned")

    def ban(self):
        """Bans new addresses, and some that may be banned already."""
        new = [self.jail.fresh(self.numbers.choice([4, 6])) for _ in range(self.numbers.randrange(1, 12))]
        sure = [ip for ip in self.sure() if self.jail.addresses[ip].bans < MOST_BANS]
        old = self.numbers.sample(sure, min(len(sure), 3))
        some = new + old
        self.numbers.shuffle(some)
        changed = [ip for ip in some if not self.jail.addresses[ip].banned]
        try:
            self.wants([str(len(changed))], "set", self.jail.name, "banip", *some)
        except Unheard as why:
            self.forget(changed, why)
            raise
        with self.jail.lock:
            for ip in changed:
                self.jail.bans(ip)
        self.known += new

    def unban(self):
        """Lets some in, of whom not all are banned."""
        some = self.numbers.sample(self.known, min(len(self.known), 4))
        if not some:
            return
        held = [ip for ip in some if self.jail.addresses[ip].banned]
        words = ["unban", *some] if self.numbers.random() < 0.5 else ["set", self.jail.name, "unbanip", *some]
        counts = range(len(held) + 1) if self.jail.is_brief() else [len(held)]
        try:
            self.wants([str(count) for count in counts], *words)
        except Unheard as why:
            self.forget(held, why)
            raise
        with self.jail.lock:
            for ip in held:
                self.jail.lets_in(ip)

    def attempt(self):
        """Lets an address fail once, an old one or a new one."""
        with self.jail.lock:
            ip = self.numbers.choice(self.failed) if self.failed and self.numbers.random() < 0.7 else self.jail.fresh()
            try:
                self.wants(["1"], "set", self.jail.name, "attempt", ip)
            except Unreached:
                raise
            except Unheard:
                self.jail.may_fail(ip, 1)
                self.failed = [other for other in self.failed if other != ip]
                raise
            self.jail.fails(ip)
            self.failed = [other for other in self.failed if other != ip]
            (self.known if self.jail.addresses[ip].banned else self.failed).append(ip)

    def forget(self, some, why):
        """Of these it is not known any more whether they are banned, if they were asked for."""
        if isinstance(why, Unreached):
            return
        with self.jail.lock:
            for ip in some:
                self.jail.may_be_either(ip)
        self.known = [ip for ip in self.known if ip not in some]
