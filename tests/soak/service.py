"""The servers: their configuration, one behind the other over one journal, what each of them said, and what it takes of the machine."""

import contextlib
import os
import shutil
import signal
import subprocess
import time

from firewall import ACTION, CHECK, NOTE

# So long a file of the journal may get: so short that the other one is begun now and then, and long enough for an action that takes all bans back.
LIMIT = 300_000
PATIENCE = 180

CONF = os.path.join(os.path.dirname(os.path.dirname(os.path.dirname(os.path.abspath(__file__)))), "conf")

JAIL = """\
[{name}]
enabled = true
filter = {filter}
logpath = {logpath}
ignoreip = 192.0.2.0/28 2001:db8:ffff::/48
findtime = 1d
maxretry = {maxretry}
bantime = {bantime}
bantime.increment = {grows}
action = note[version={version}, check="{check}"]
"""

# What is refused when it is read again, and the words with which it is.
REFUSED = [
    ("[web]\nbantime = soon\n", "Configuration refused: jail.conf [web] bantime: BadTime"),
    ("no delimiter\n", "Configuration refused: jail.local [] : NoDelimiter 1"),
    ("[mail]\nfilter = none\n", "Configuration refused: filter.d/none.conf [mail] filter: MissingFile"),
    ("[INCLUDES]\nbefore = none.conf\n", "Configuration refused: jail.local [] : MissingInclude none.conf"),
    ("[sshd]\nfailregex = (<ADDR>\n", "Pattern refused: sshd failregex 1 Syntax"),
    ("[sshd]\nfailregex = <ADDR>\\pL{900}\n", "Pattern refused: sshd failregex 1 TooBig"),
]


class Stopped(Exception):
    """The server ended by itself, or does not do what it has to for a long time."""


class Configuration:
    """The configuration of the jails: filters that ship, and an action that notes what it is called for."""

    FILTERS = {"sshd": "sshd", "web": "nginx-http-auth", "mail": "dovecot"}

    def __init__(self, place, logs):
        self.place, self.logs = place, logs
        self.versions = {log.jail.name: 1 for log in logs}
        self.maxretry = {log.jail.name: log.jail.maxretry for log in logs}
        for name in ["action.d", "filter.d"]:
            os.makedirs(f"{place}/conf/{name}")
        for name in ["common", *self.FILTERS.values()]:
            shutil.copy(f"{CONF}/filter.d/{name}.conf", f"{place}/conf/filter.d")
        self.put("fail2ban.conf", f"[Definition]\nsocket = {place}/run/fail2ban.sock\n")
        self.put("action.d/note.conf", ACTION)
        with open(f"{place}/note", "w") as file:
            file.write(NOTE)
        self.write()

    def put(self, name, text):
        with open(f"{self.place}/conf/{name}", "w") as file:
            file.write(text)

    def write(self):
        """Writes what the jails are now."""
        self.put("jail.conf", "".join(map(self.jail, self.logs)))

    def jail(self, log):
        name = log.jail.name
        logpath = f"{self.place}/mail-*.log" if name == "mail" else "\n    ".join(log.paths)
        return JAIL.format(
            name=name,
            filter=self.FILTERS[name],
            logpath=logpath,
            maxretry=self.maxretry[name],
            bantime=log.jail.bantime,
            grows=str(log.jail.grows).lower(),
            version=self.versions[name],
            check=CHECK.format(name=name) if name == "mail" else "",
        )


def changes(place):
    """How often the other file of the journal was begun: its generation rises by one then."""
    generations = [0]
    for slot in range(2):
        with contextlib.suppress(FileNotFoundError), open(f"{place}/run/journal.{slot}", "rb") as file:
            generations.append(int.from_bytes(file.read(9)[1:], "big"))
    return max(generations) - 1


class Server:
    """A server that runs, with its number, which its commands find in their PATH, and the file that has its lines."""

    def __init__(self, program, place, number):
        self.number, self.place, self.said_in = number, place, f"{place}/said-{number}"
        # A program that is built with checks keeps what is freed for a while, 256 MiB of it, unless it is told not to.
        environment = {**os.environ, "PATH": f"/usr/bin:/bin:/{number}", "ASAN_OPTIONS": "quarantine_size_mb=0:thread_local_quarantine_size_kb=0"}
        words = [program, "--conf", f"{place}/conf", "--journal-limit", str(LIMIT)]
        with open(self.said_in, "wb") as said, open(f"{place}/errors", "ab") as errors:
            self.process = subprocess.Popen(words, stdin=subprocess.DEVNULL, stdout=said, stderr=errors, cwd=place, env=environment)

    def said(self):
        """The whole lines so far, without their seconds."""
        with open(self.said_in, "rb") as file:
            return [line.split(" ", 1)[1] for line in file.read().decode().split("\n")[:-1]]

    def has_said(self, line):
        """Whether the line stands at the end of one of those so far."""
        with open(self.said_in, "rb") as file:
            return f" {line}\n".encode() in file.read()

    def wait_said(self, line):
        self.wait_for(lambda: self.has_said(line), line)

    def wait_for(self, holds, what):
        """Waits until the condition holds, while the server runs."""
        end = time.monotonic() + PATIENCE
        while self.runs() and not holds():
            if time.monotonic() > end:
                raise Stopped(f"{what!r}: nothing within {PATIENCE} s, behind {self.said()[-3:]}")
            time.sleep(0.01)

    def runs(self):
        if self.process.poll() is not None:
            raise Stopped(f"server {self.number} ended with {self.process.returncode}, behind {self.said()[-3:]}")
        return True

    def kill(self):
        self.runs()
        self.process.send_signal(signal.SIGKILL)
        self.process.wait()

    def files(self):
        """How many files it has open while it does nothing: at a look it has one more, and more as it starts a command."""
        least = len(os.listdir(f"/proc/{self.process.pid}/fd"))
        for _ in range(10):
            time.sleep(0.02)
            least = min(least, len(os.listdir(f"/proc/{self.process.pid}/fd")))
        return least

    def memory(self):
        """How many KiB of the machine's memory it has now, and had at most."""
        with open(f"/proc/{self.process.pid}/status", encoding="utf-8") as file:
            fields = dict(line.split(":", 1) for line in file)
        return [int(fields[name].split()[0]) for name in ("VmRSS", "VmHWM")]

    def children(self):
        """Its processes, also such as have ended and are not asked for."""
        with open(f"/proc/{self.process.pid}/task/{self.process.pid}/children", encoding="utf-8") as file:
            return file.read().split()
