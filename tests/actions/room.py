"""The server over a copy of conf/ in a folder of its own, with a firewall to change, and what the checks ask of both."""

import glob
import os
import shutil
import signal
import subprocess
import sys
import time

HERE = os.path.dirname(os.path.abspath(__file__))
sys.path.append(os.path.dirname(HERE))

from checks import PATIENCE, Failed, same, status_of, wait_for, want

CONF = os.path.join(HERE, "../../conf")
BOOT_ID = os.path.join(HERE, "../../service/boot-id")

# A user that may change no firewall.
NOBODY = 65534

# What a stand-in of a firewall keeps from the start.
KEPT = ["nft", "ipset", "iptables", "ip6tables", "ip-4", "ip-6", "mail"]
CHAINS = ["INPUT", "FORWARD", "OUTPUT"]

# A jail of one's own: one failure bans.
JAIL = """\
[{name}]
enabled = true
filter =
logpath = {log}
datepattern = Epoch
failregex = ^ fail of <ADDR>
maxretry = 1
bantime = {bantime}
action = {action}
"""


def write(path, text, mode="w"):
    with open(path, mode, encoding="utf-8") as file:
        file.write(text)


def number(bytes_, at):
    """The number that stands there in a journal, and the place behind it (docs/journal.md)."""
    value = shift = 0
    while True:
        value |= (bytes_[at] & 127) << shift
        at, shift = at + 1, shift + 7
        if bytes_[at - 1] < 128:
            return value, at


def text(bytes_, at):
    length, at = number(bytes_, at)
    return bytes_[at : at + length].decode(), at + length


class Commands:
    """The commands of a lane as the server has them."""

    KINDS = ["start", "stop", "ban", "unban", "check"]

    def __init__(self, texts, family):
        self.texts = dict(zip(self.KINDS, texts))
        self.family = family

    def of(self, kind, address="", **tags):
        """The command with its tags filled in, as docs/actions.md says."""
        values = {"ip": address, "family": self.family, "failures": "0", "time": "0", "bantime": "0", "bancount": "0", "matches": "", "br": "\n", **tags}
        command = self.texts[kind]
        for name, value in values.items():
            command = command.replace(f"<{name}>", value)
        return command


class Room:
    """A folder with a configuration, a log and a server. Its firewall is one of files, or where it is real that of the network's namespace."""

    def __init__(self, server, client, place, is_real=False):
        self.server, self.client, self.place, self.is_real = server, client, place, is_real
        self.log = self.path("log")
        self.runs = None
        self.environment = {"PATH": os.environ["PATH"], "LANG": "C.UTF-8"}
        shutil.copytree(CONF, self.path("conf"), symlinks=True)
        os.symlink(self.path("boot.local"), self.path("conf/action.d/boot.local"))
        write(self.path("conf/fail2ban.local"), f"[Definition]\nsocket = {place}/run/fail2ban.sock\n")
        write(self.log, "")
        if not is_real:
            shutil.copytree(os.path.join(HERE, "stubs"), self.path("bin"))
            os.symlink("iptables", self.path("bin/ip6tables"))
            self.environment["PATH"] = self.path("bin") + ":" + self.environment["PATH"]
            self.empty_firewall()

    def path(self, name):
        return os.path.join(self.place, name)

    def empty_firewall(self):
        """What a reboot does."""
        shutil.rmtree(self.path("firewall"), ignore_errors=True)
        if self.is_real:
            self.sh("nft flush ruleset; ipset flush; ipset destroy; ip -4 rule del priority 1000; ip -6 rule del priority 1000", quiet=True)
            return
        for name in KEPT:
            os.makedirs(self.path(f"firewall/{name}"))
        for name in ["iptables", "ip6tables"]:
            for chain in CHAINS:
                write(self.path(f"firewall/{name}/{chain}"), "")
        for name in ["ip-4", "ip-6"]:
            write(self.path(f"firewall/{name}/rules"), "")

    def boots(self, word):
        """What the service's start does, at a start of the machine that has this number."""
        write(self.path("boot_id"), word + "\n")
        subprocess.run([BOOT_ID, self.path("boot.local"), self.path("boot_id")], check=True)

    def configure(self, jails, bantime=3600, more=""):
        """Jails of these names with these actions, and no other."""
        each = [JAIL.format(name=name, log=self.log, bantime=bantime, action=action) for name, action in jails.items()]
        write(self.path("conf/jail.local"), "[sshd]\nenabled = false\n" + "".join(each) + more)

    def sh(self, command, quiet=False, **how):
        """Runs a command as the server does, and gives its status and what it wrote."""
        how.update(stdin=subprocess.DEVNULL, capture_output=True, env=self.environment, timeout=PATIENCE)
        ended = subprocess.run(["/bin/sh", "-c", command], check=False, **how)
        return ended.returncode, ended.stdout.decode() + ("" if quiet else ended.stderr.decode())

    def start(self, *words, apart=False):
        """Starts the server. One apart has a group of processes of its own, with its commands."""
        with open(self.path("said"), "ab") as said, open(self.path("errors"), "ab") as errors:
            self.runs = subprocess.Popen(
                [self.server, "--conf", self.path("conf"), *words],
                stdin=subprocess.DEVNULL,
                stdout=said,
                stderr=errors,
                env=self.environment,
                start_new_session=apart,
            )

    def kill(self):
        """Ends the server as kill -9 does."""
        if self.runs:
            self.runs.kill()
            self.runs.wait()
            self.runs = None

    def kill_all(self):
        """Ends a server that runs apart, with the commands that it runs, as the end of the machine does."""
        os.killpg(self.runs.pid, signal.SIGKILL)
        self.kill()

    def ask(self, *words):
        """What the server replies to its client."""
        asked = [self.client, "-s", self.path("run/fail2ban.sock"), *words]
        ended = subprocess.run(asked, stdin=subprocess.DEVNULL, capture_output=True, timeout=PATIENCE, check=False)
        return ended.returncode, ended.stdout.decode()

    def says(self, line, count=1):
        """Waits until the server has said a line so often."""
        wait_for(lambda: self.said().count(line) >= count or self.has_ended(), line, lambda: len(self.said()))
        want(self.said().count(line) >= count, f"the server ended: {self.said()[-3:]}, {self.errors()}")

    def has_ended(self):
        return self.runs is not None and self.runs.poll() is not None

    def said(self):
        """The lines that the server said, without their seconds."""
        with open(self.path("said"), encoding="utf-8") as file:
            return [line.split(" ", 1)[-1] for line in file.read().splitlines()]

    def errors(self):
        with open(self.path("errors"), encoding="utf-8") as file:
            return file.read()

    def said_faults(self):
        return [line for line in self.said() if line.startswith(("ERROR", "WARNING"))]

    def fail(self, addresses, words=""):
        """Each address fails once."""
        now = int(time.time())
        write(self.log, "".join(f"{now} fail of {address}{words}\n" for address in addresses), "a")

    def commands(self, name, action):
        """The commands of the action, as the server reads the configuration: by family, from its journal."""
        self.configure({name: action})
        # Its commands find no programs, and change nothing.
        with_programs, self.environment = self.environment, {"PATH": self.path("nowhere")}
        self.start("--turns", "1")
        same(self.runs.wait(), 0, "the server's status")
        self.runs, self.environment = None, with_programs
        with open(self.path("run/journal.0"), "rb") as file:
            journal = file.read()
        for path in glob.glob(self.path("run/journal.*")):
            os.remove(path)
        found, head = {}, bytes([len(action.split("[")[0])]) + action.split("[")[0].encode()
        for code, families in {4: ["inet4"], 6: ["inet6"], 0: ["inet4", "inet6"]}.items():
            at = journal.find(head + bytes([code]))
            if at < 0:
                continue
            at, texts = at + len(head) + 1, []
            for _ in Commands.KINDS:
                each, at = text(journal, at)
                texts.append(each)
            found.update({family: Commands(texts, family) for family in families})
        same(sorted(found), ["inet4", "inet6"], "families in the journal")
        return found


def table_of(name):
    """The number of the table of routes of a jail: what cksum says of its name."""
    return posix_checksum(name.encode())


def posix_checksum(data):
    """The checksum of cksum: CRC-32 from the high bit, over the bytes and their number."""
    length, size = len(data), b""
    while length:
        size, length = size + bytes([length & 255]), length >> 8
    value = 0
    for byte in data + size:
        value ^= byte << 24
        for _ in range(8):
            value = ((value << 1) ^ 0x04C11DB7 if value & 0x80000000 else value << 1) & 0xFFFFFFFF
    return value ^ 0xFFFFFFFF
