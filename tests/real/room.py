"""A server that is run over a folder of its own, and what the checks of real.py ask of it."""

import contextlib
import os
import shutil
import subprocess
import sys
import tempfile
import time

sys.path.append(os.path.dirname(os.path.dirname(os.path.abspath(__file__))))

from checks import PATIENCE, Failed, Skipped, same, status_of, wait_for, want

# How many seconds a program may take that is run to its end, which tells nothing meanwhile.
LONG_PATIENCE = 5 * PATIENCE

# A user that may read only what all may.
NOBODY = 65534

JAIL = """\
[web]
enabled = true
logpath = {log}
ignoreself = false
datepattern = Epoch
findtime = 600
maxretry = {maxretry}
bantime = {bantime}
failregex = ^ fail from <ADDR>$
"""

# The server's own items. Its journal is beside the socket, in the folder of the check.
SERVER = """\
[Definition]
socket = {place}/run/fail2ban.sock
"""

# A jail that is looked at behind the other one. A failure that a check writes to its log tells how far the server is.
PROBE = """
[probe]
enabled = true
logpath = {log}
ignoreself = false
datepattern = Epoch
failregex = ^ fail from <ADDR>$
maxretry = 100000
"""


def write(path, content, mode="w"):
    """Writes text, or bytes, in one call."""
    data = content if isinstance(content, bytes) else content.encode()
    with open(path, mode + "b", buffering=0) as file:
        file.write(data)


def failures(*addresses, ahead=0):
    """A line for each address, dated now, or so many seconds ahead of it."""
    now = int(time.time()) + ahead
    return "".join(f"{now} fail from {address}\n" for address in addresses)


def among_others(lines, others):
    """These lines, each with so many others behind it that are no failures: what is found in a long log is then little work."""
    return "".join(line + "nothing to see in this line\n" * others for line in lines.splitlines(keepends=True))


def as_nobody():
    """How to start a program that may read only what all may: root reads all."""
    if os.geteuid() != 0:
        return {}
    how = {"user": NOBODY, "group": NOBODY, "extra_groups": []}
    try:
        subprocess.run(["true"], check=True, **how)
    except OSError as why:
        raise Skipped("root may not start a program as another user here") from why
    return how


def may_trace(*fault):
    """Skips a check where strace may not look at what a program calls here, or may not make a call fail."""
    words = ["strace", "-o", "/dev/null", *fault, "true"]
    if not shutil.which("strace") or subprocess.run(words, capture_output=True, check=False).returncode != 0:
        raise Skipped("strace is not there, or may not look" + (" and make calls fail" if fault else ""))


def has_checks(program):
    """Whether a program was built with checks while it runs: such a one asks for far more room than it uses, and takes long over many bytes."""
    with open(program, "rb") as file:
        return b"AddressSanitizer" in file.read()


class Room:
    """A folder with a configuration and a log, both readable by all, and the programs to be run over them."""

    def __init__(self, program, client, tester, place):
        self.program = program
        self.client = client
        self.tester = tester
        self.place = place
        self.conf = os.path.join(place, "conf")
        self.log = os.path.join(place, "web.log")
        # The words in front of the server's, of what starts it.
        self.starter = []
        os.mkdir(self.conf)
        os.chmod(place, 0o755)
        self.configure()

    def configure(self, log=None, maxretry=3, bantime=60, more=""):
        text = JAIL.format(log=log or self.log, maxretry=maxretry, bantime=bantime)
        probe = PROBE.format(log=self.path("probe.log"))
        write(self.path("conf/jail.conf"), text + more + probe)
        write(self.path("conf/fail2ban.conf"), SERVER.format(place=self.place))

    def path(self, name):
        return os.path.join(self.place, name)

    def as_nobody(self):
        """How to start a server that may read only what all may, and that has a directory of its own for its journal."""
        how = as_nobody()
        os.makedirs(self.path("run"), mode=0o700, exist_ok=True)
        if how:
            os.chown(self.path("run"), NOBODY, NOBODY)
        return how

    def words(self, *more):
        return [*self.starter, self.program, "--conf", self.conf, *more]

    def run(self, *words, program=None, **how):
        """Runs the server, or another program, with these words to its end, and gives its status, what it said and its errors."""
        with tempfile.TemporaryFile() as errors:
            how = {"stdin": subprocess.DEVNULL, "stdout": subprocess.PIPE, "stderr": errors, **how}
            try:
                ended = subprocess.run([program or self.program, *words], timeout=LONG_PATIENCE, check=False, **how)
            except subprocess.TimeoutExpired as late:
                raise Failed(f"did not end within {LONG_PATIENCE} s") from late
            errors.seek(0)
            said = (ended.stdout or b"").decode()
            return ended.returncode, said, errors.read().decode()

    def ends(self, status, said, *words, **how):
        """Runs the program to its end, and wants this status and these lines, but for the second of each, and no errors."""
        saw, text, errors = self.run(*words, **how)
        same(saw, status, f"status, behind {text!r} {errors[:2000]!r}")
        same([line.split(" ", 1)[-1] for line in text.splitlines()], said, "said")
        same(errors, "", "standard error")

    @contextlib.contextmanager
    def server(self, *more, **how):
        """A server that runs, and is ended by the signal that ends without a word."""
        server = Server(self, more, how)
        try:
            server.wait_said("INFO Server ready")
            yield server
            same(server.errors(), "", "standard error")
        finally:
            server.end()


class Server:
    """A server that runs, whose lines go into a file."""

    def __init__(self, room, more, how):
        self.said_in = tempfile.TemporaryFile()
        self.errors_in = tempfile.TemporaryFile()
        how = {"stdin": subprocess.DEVNULL, "stdout": self.said_in, "stderr": self.errors_in, **how}
        self.process = subprocess.Popen(room.words(*more), **how)
        self.pid = self.process.pid
        self.probe = room.path("probe.log")
        self.probes = 0

    def end(self):
        if self.process.returncode is None:
            self.process.kill()
            self.process.wait()
        self.said_in.close()
        self.errors_in.close()

    def text(self):
        return os.pread(self.said_in.fileno(), 1 << 28, 0).decode()

    def errors(self):
        return os.pread(self.errors_in.fileno(), 1 << 16, 0).decode()

    def whole_lines(self):
        return [line.split(" ", 1)[1] for line in self.text().split("\n")[:-1]]

    def said(self):
        """The whole lines so far, without their seconds, and without those of probes."""
        return [line for line in self.whole_lines() if "[probe]" not in line]

    def count(self, line):
        return self.whole_lines().count(line)

    def wait_said(self, line, times=1):
        """Waits until the line was said so many times, by a server that runs on."""

        def is_there():
            if self.count(line) >= times:
                return True
            ended = self.process.poll()
            want(ended is None, f"ended with {ended}, behind {self.text()[-2000:]!r} {self.errors()[:2000]!r}")
            return False

        wait_for(is_there, f"{line!r} {times} times", lambda: self.text()[-500:])

    def wait_ended(self, status):
        """Waits until the server ended by itself, and wants this status."""
        wait_for(lambda: self.process.poll() is not None, "the end")
        same(self.process.returncode, status, f"status, behind {self.text()[-500:]!r}")

    def moment(self, line):
        """The second at which the line was said first."""
        for each in self.text().splitlines():
            second, text = each.split(" ", 1)
            if text == line:
                return int(second)
        raise Failed(f"{line!r} was not said")

    def signal(self, number):
        self.process.send_signal(number)

    def files(self):
        return len(os.listdir(f"/proc/{self.pid}/fd"))

    def paths(self):
        """Where the files are that it has open. One that goes meanwhile is none of them."""
        of = f"/proc/{self.pid}/fd"
        paths = []
        with contextlib.suppress(OSError):
            paths = [os.readlink(f"{of}/{number}") for number in os.listdir(of)]
        return paths

    def peak(self):
        """The most bytes of memory that it has had so far."""
        with open(f"/proc/{self.pid}/status", encoding="utf-8") as file:
            return next(int(line.split()[1]) * 1_024 for line in file if line.startswith("VmHWM"))

    def turn(self):
        """Waits until all logs were looked at once more: a turn that finds the second failure began behind the first."""
        for _ in range(2):
            self.probes += 1
            address = f"198.18.{self.probes // 250}.{self.probes % 250 + 1}"
            write(self.probe, failures(address), "a")
            self.wait_said(f"INFO [probe] Found {address}")
