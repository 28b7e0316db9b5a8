"""A clock that jumps while the server runs: the program's own clock, by a library that is loaded before the C library."""

import contextlib
import os
import shutil
import subprocess
import time

from commands import ADDRESS, ENDLESS, act, ban, content, lives, noted_process, wait_done
from room import Skipped, failures, same, want, write

READY = "INFO Server ready"
FOUND = f"INFO [web] Found {ADDRESS}"
BAN = f"NOTICE [web] Ban {ADDRESS}"
UNBAN = f"NOTICE [web] Unban {ADDRESS}"
DAY = 86_400


class Jumps:
    """A clock that is the machine's until it is set so many seconds ahead of it, or behind."""

    def __init__(self, room, ahead=0):
        compiler = shutil.which("cc") or shutil.which("gcc") or shutil.which("clang")
        if not compiler:
            raise Skipped("there is no C compiler")
        library, source = room.path("jump.so"), os.path.join(os.path.dirname(__file__), "jump.c")
        made = subprocess.run([compiler, "-shared", "-fPIC", "-o", library, source], capture_output=True, check=False)
        if made.returncode:
            raise Skipped(f"the C compiler made no library: {made.stderr[:200]!r}")
        self.file = room.path("ahead")
        self.how = {"env": {**os.environ, "LD_PRELOAD": library, "AHEAD": self.file}}
        self.set(ahead)
        probe = subprocess.run(["date", "+%s"], capture_output=True, check=False, **self.how)
        if not probe.stdout or abs(int(probe.stdout) - time.time() - ahead) > 5:
            raise Skipped("no library is loaded before the C library here")

    def set(self, ahead):
        write(self.file + ".new", str(ahead))
        os.replace(self.file + ".new", self.file)


def a_clock_jumps_ahead(room):
    """where the clock jumps a day ahead bans end, the commands that run are late at once, and are tried again"""
    act(room, actionban="echo ban >> {done}; test -e {flag} && exit; " + ENDLESS, actionunban="echo unban >> {done}")
    jumps = Jumps(room)
    with room.server(**jumps.how) as server:
        ban(room)
        process = noted_process(room)
        write(room.path("flag"), "")
        jumps.set(DAY)
        server.wait_said("ERROR [web/note] ban failed: timed out")
        wait_done(room, ["ban", "ban", "unban"])
        want(not lives(process), "the process of the command goes on")
        same(server.said(), [READY, FOUND, FOUND, FOUND, BAN, UNBAN, "ERROR [web/note] ban failed: timed out"], "said")
        want(server.moment(UNBAN) - server.moment(BAN) >= DAY - 60, "the clock has not jumped")
        write(room.log, failures("192.0.2.8") + failures("192.0.2.9", ahead=DAY), "a")
        server.wait_said("INFO [web] Found 192.0.2.9")
        same(server.count("INFO [web] Found 192.0.2.8"), 0, "failures of a day ago")


def a_clock_jumps_back(room):
    """where the clock jumps a day back no ban ends and no command is late or tried again until it has caught up"""
    act(room, actionban="echo ban >> {done}; exit 1")
    write(room.path("conf/action.d/wait.conf"), f"[Definition]\ntimeout = 2\nactionban = {ENDLESS.format(pid=room.path('pid'))}\n")
    room.configure(bantime=3, more="action = note\n    wait\n")
    jumps = Jumps(room)
    failed, late = "ERROR [web/note] ban failed: status 1", "ERROR [web/wait] ban failed: timed out"
    with room.server(**jumps.how) as server:
        jumps.set(-DAY)
        server.turn()
        ban(room)
        process = noted_process(room)
        server.wait_said(failed)
        time.sleep(5)
        server.turn()
        same(server.said(), [READY, FOUND, FOUND, FOUND, BAN, failed], "said before the clock has caught up")
        same(content(room, "done"), "ban\n", "tries before the clock has caught up")
        want(lives(process), "the command has ended")
        jumps.set(0)
        server.wait_said(UNBAN)
        server.wait_said(late)
        server.wait_said("ERROR [web/note] ban given up")
        same(server.count(failed), 3, "tries")


def a_clock_is_not_set_yet(room):
    """a server that starts before 1970 says so, bans by what the log holds, and ends these bans when the clock is set"""
    jumps = Jumps(room, -int(time.time()) - DAY)
    write(room.log, failures(ADDRESS, ADDRESS, ADDRESS, ahead=-DAY))
    with room.server(**jumps.how) as server:
        server.wait_said(BAN)
        same(server.moment(BAN), 0, "moment")
        jumps.set(0)
        server.wait_said(UNBAN)
        want(server.moment(UNBAN) >= time.time() - 60, "the moment is not that of the machine's clock")


def a_start_goes_on_at_the_latest_moment(room):
    """a start with a clock that was set back goes on at the latest moment that was kept, and one with both files away at the clock's"""
    jumps = Jumps(room, DAY)
    with room.server(**jumps.how) as server:
        write(room.log, failures(ADDRESS, ADDRESS, ADDRESS, ahead=DAY), "a")
        server.wait_said(BAN)
        banned = server.moment(BAN)
    jumps.set(0)
    with room.server(**jumps.how) as server:
        write(room.log, failures("192.0.2.8") + failures("192.0.2.9", ahead=DAY), "a")
        server.wait_said("INFO [web] Found 192.0.2.9")
        same(server.said(), [READY, "INFO [web] Found 192.0.2.9"], "said behind the kept moment")
        want(server.moment(READY) >= banned, f"ready at {server.moment(READY)}, behind a ban at {banned}")
    for number in range(2):
        with contextlib.suppress(FileNotFoundError):
            os.remove(room.path(f"run/journal.{number}"))
    os.remove(room.log)
    with room.server(**jumps.how) as server:
        want(abs(server.moment(READY) - time.time()) < DAY / 2, f"ready at {server.moment(READY)}")
        ban(room)
        server.wait_said(BAN)


CHECKS = [
    a_clock_jumps_ahead,
    a_clock_jumps_back,
    a_clock_is_not_set_yet,
    a_start_goes_on_at_the_latest_moment,
]
