"""Folders in which servers are run, one behind the other: a jail whose action notes what it is called for, and a log with failures of an address."""

import contextlib
import os
import shutil
import subprocess
import time

from refused import LONGEST

from checks import Failed, want

# Who stands in the log.
LOGGED = "192.0.2.7"

# Its lines have no dates: a pattern of dates is what costs most of the requests for memory of a start, and is built over and over.
JAIL = """\
[web]
enabled = true
logpath = {log}
ignoreself = false
datepattern = {{NONE}}
findtime = 1d
maxretry = 3
bantime = 1d
failregex = ^fail from <IP4>$
action = note
"""

# What the commands note stands in the folder in which the server was started: whether they have its PATH and its LANG, and what they are run for.
ACTION = """\
[Definition]
actionstart = echo "${PATH##*:} $LANG start" >> done
actionstop = echo "${PATH##*:} $LANG stop" >> done
actioncheck = test -e done
actionban = echo "${PATH##*:} $LANG ban <ip>" >> done
actionunban = echo "${PATH##*:} $LANG unban <ip>" >> done
"""

# What commands have of the environment, and how they note it.
HANDED_ON = {"PATH": "/usr/bin:/bin:/handed-on", "LANG": "C.UTF-8"}
NOTED = "/handed-on C.UTF-8 "


def log_in(place):
    """The log that all servers follow: its path is a part of what they keep."""
    path = os.path.join(place, "web.log")
    if not os.path.exists(path):
        with open(path, "w", encoding="utf-8") as file:
            file.write(f"fail from {LOGGED}\n" * 3)
    return path


class Folder:
    """What one server has, and the next one."""

    def __init__(self, place, program, log, kept=None):
        self.place, self.program = place, program
        self.socket = self.path("run/fail2ban.sock")
        os.makedirs(self.path("conf/action.d"))
        self.put("conf/fail2ban.conf", f"[Definition]\nsocket = {self.socket}\n")
        self.put("conf/jail.conf", JAIL.format(log=log))
        self.put("conf/action.d/note.conf", ACTION)
        if kept:
            shutil.copytree(kept, self.path("run"))
        else:
            os.mkdir(self.path("run"), 0o700)

    def path(self, name):
        return os.path.join(self.place, name)

    def put(self, name, text):
        with open(self.path(name), "w", encoding="utf-8") as file:
            file.write(text)

    def content(self, name):
        try:
            with open(self.path(name), encoding="utf-8") as file:
                return file.read()
        except FileNotFoundError:
            return ""

    def lines(self, name):
        """What a server said, without the seconds."""
        return [line.split(" ", 1)[-1] for line in self.content(name).splitlines()]

    def errors(self, name):
        return self.content(f"{name}-errors")

    def noted(self):
        """What the commands noted that they were run for, each with all that the server hands on."""
        lines = self.content("done").splitlines()
        strange = [line for line in lines if not line.startswith(NOTED)]
        want(not strange, f"commands lack what is handed on to them, {HANDED_ON}: {strange}")
        return [line.removeprefix(NOTED) for line in lines]

    @contextlib.contextmanager
    def server(self, name, *words, env=os.environ):
        """A server that runs, and says into the file of that name. It is killed where it has not ended by itself."""
        words = [self.program, "--conf", self.path("conf"), *words]
        with open(self.path(name), "wb") as said, open(self.path(f"{name}-errors"), "wb") as errors:
            process = subprocess.Popen(words, stdin=subprocess.DEVNULL, stdout=said, stderr=errors, cwd=self.place, env={**env, **HANDED_ON})
        try:
            yield process
        finally:
            process.kill()
            process.wait()

    def ended(self, process):
        """Waits for the end of the server, and gives its status."""
        try:
            return process.wait(LONGEST)
        except subprocess.TimeoutExpired as late:
            raise Failed(f"hangs: it did not end within {LONGEST} s") from late

    def wait(self, process, name, holds, what):
        """Waits until the condition holds, while the server of that name runs."""
        end = time.monotonic() + LONGEST
        while not holds():
            saw = f"behind {self.lines(name)} {self.errors(name)[-1500:]!r}"
            want(process.poll() is None, f"the server '{name}' ended with {process.returncode}, {saw}")
            want(time.monotonic() < end, f"the server '{name}' hangs: {what} is not there within {LONGEST} s, {saw}")
            time.sleep(0.03)


@contextlib.contextmanager
def live_server(program, place):
    """A server that runs while clients ask it, in the folder `live`."""
    os.mkdir(os.path.join(place, "live"))
    folder = Folder(os.path.join(place, "live"), program, log_in(place))
    with folder.server("said") as process:
        folder.wait(process, "said", lambda: f"ban {LOGGED}" in folder.noted(), "the first ban")
        yield
