"""What the server keeps over a stop: its files, their lock, what a start takes up from them, and files that are none.

What slots hold is told by slots.py, which knows the page of the docs alone.
"""

import contextlib
import fcntl
import os
import random
import re
import resource
import shutil
import signal
import stat
import subprocess
import time

import slots
from commands import ADDRESS, ENDLESS, act, ban, children, content, lives, noted_process, wait_done
from room import NOBODY, SERVER, Server, Skipped, failures, may_trace, same, wait_for, want, write

READY = "INFO Server ready"
BAN = f"NOTICE [web] Ban {ADDRESS}"
UNBAN = f"NOTICE [web] Unban {ADDRESS}"
DISK = ["ERROR disk"]
SPENT = "ERROR numbers spent"


def found(address=ADDRESS):
    return f"INFO [web] Found {address}"


def path_of(room, number):
    return room.path(f"run/journal.{number}")


def both(room):
    """The bytes of both slots; of a file that is not there none."""
    data = []
    for number in range(2):
        try:
            with open(path_of(room, number), "rb") as file:
                data.append(file.read())
        except FileNotFoundError:
            data.append(b"")
    return data


def files(room):
    """Each file of the journal's directory but the socket, with its bytes and the moment at which it was last written to."""
    seen = {}
    for name in os.listdir(room.path("run")):
        path = room.path(f"run/{name}")
        if stat.S_ISSOCK(os.stat(path).st_mode):
            continue
        with open(path, "rb") as file:
            seen[name] = file.read(), os.stat(path).st_mtime_ns
    return seen


def place(room, first, second):
    """Makes these bytes the two slots, and no file of one that is None."""
    os.makedirs(room.path("run"), exist_ok=True)
    for number, data in enumerate([first, second]):
        with contextlib.suppress(FileNotFoundError):
            os.remove(path_of(room, number))
        if data is not None:
            write(path_of(room, number), data)


def start_quickly(room):
    """Gives the jails patterns that are built quickly, for checks that start many servers."""
    with open(room.path("conf/jail.conf"), encoding="utf-8") as file:
        text = file.read()
    write(room.path("conf/jail.conf"), text.replace("= Epoch", "= {NONE}").replace("^ fail from <ADDR>$", "fail from <IP4>$"))


def kill(server):
    """Ends a server as want of power would end its process."""
    server.process.kill()
    server.process.wait()


def a_good_journal(room):
    """Slots that a server left that counted failures and banned; slot 0 counts, and has several inputs."""
    room.configure(bantime=6_000)
    start_quickly(room)
    with room.server() as server:
        server.turn()
        ban(room)
        server.wait_said(BAN)
        server.turn()
        kill(server)
    return both(room)


def means(first, second):
    """What a start over these slots has to come to, by slots.py: its status and lines, and the slot that counts."""
    try:
        return 0, [READY], slots.journal(first, second)
    except slots.Bad as why:
        return 6, [f"ERROR not a journal: slot {why.slot} at {why.at}"], None


def starts_so(room, first, second, what):
    """Has a server start over these slots, and wants what slots.py says of them. Nothing may be written where they are no journal."""
    place(room, first, second)
    status, said, counts = means(first or b"", second or b"")
    saw, text, errors = room.run("--conf", room.conf, "--turns", "1")
    lines = [line.split(" ", 1)[1] for line in text.splitlines()]
    # What was banned long ago may end in the first turn.
    same((saw, lines[:1], errors), (status, said[:1], ""), what)
    if status != 0:
        same(both(room), [first or b"", second or b""], f"{what}: slots")
        there = [f"journal.{number}" for number, data in enumerate([first, second]) if data is not None]
        same(sorted(files(room)), [*there, "journal.lock"], f"{what}: files")
    elif counts is not None:
        same(slots.journal(*both(room)).view, counts.view, f"{what}: view that is kept")
    return status


def other_web(room, name, log):
    """Another room's configuration beside the room's own, with the same place for the journal."""
    os.mkdir(room.path(name))
    with open(room.path("conf/jail.conf"), encoding="utf-8") as file:
        write(room.path(f"{name}/jail.conf"), file.read().replace(room.log, log))
    write(room.path(f"{name}/fail2ban.conf"), SERVER.format(place=room.place))
    return room.path(name)


def files_are_the_owners_alone(room):
    """the journal's directory is made with those above it, 0700 and its files 0600, also where the umask takes nothing"""
    for umask, name in [(0, "a/b"), (0o077, "c/d"), (0o027, "e")]:
        write(room.path("conf/fail2ban.conf"), f"[Definition]\nsocket = {room.path(name)}/fail2ban.sock\n")
        write(room.log, failures(ADDRESS), "a")
        room.run("--conf", room.conf, "--turns", "2", umask=umask)
        top = room.path(name.split("/")[0])
        saw = {os.path.relpath(path, top): stat.S_IMODE(os.stat(path).st_mode) for path in tree(top)}
        inner = {"b": "b/", "d": "d/"}.get(name[2:], "")
        wanted = {".": 0o700, f"{inner}journal.0": 0o600, f"{inner}journal.lock": 0o600} | ({inner[:-1]: 0o700} if inner else {})
        same(saw, wanted, f"modes with the umask {umask:o}")


def tree(top):
    for place_of, _folders, names in os.walk(top):
        yield place_of
        yield from (os.path.join(place_of, name) for name in names)


def a_directory_stays_as_it_is(room):
    """a directory that is there keeps its mode and what is in it, also where the socket is named by a bare name"""
    os.mkdir(room.path("run"), 0o751)
    os.chmod(room.path("run"), 0o751)
    write(room.path("run/other"), "mine")
    write(room.path("conf/fail2ban.conf"), "[Definition]\nsocket = fail2ban.sock\n")
    room.ends(0, [READY], "--conf", room.conf, "--turns", "1", cwd=room.path("run"))
    same(stat.S_IMODE(os.stat(room.path("run")).st_mode), 0o751, "mode")
    same(sorted(os.listdir(room.path("run"))), ["journal.0", "journal.lock", "other"], "files")
    same(content(room, "run/other"), "mine", "another file")


def a_second_server_is_refused(room):
    """where another server has the journal a second one says so, status 5, and writes nothing, and the first goes on"""
    with room.server() as server:
        ban(room)
        server.wait_said(BAN)
        server.turn()
        before = files(room)
        log = room.path("other.log")
        write(log, failures("192.0.2.8"))
        for conf in [room.conf, other_web(room, "other", log)]:
            room.ends(5, DISK, "--conf", conf)
            room.ends(5, DISK, "--conf", conf, "--turns", "3", "--journal-limit", "1")
        same(files(room), before, "the journal's files")
        write(room.log, failures("192.0.2.9"), "a")
        server.wait_said(found("192.0.2.9"))
    # The lock goes with the process.
    with room.server() as server:
        server.turn()
        same(server.said(), [READY], "said by the next server")


def a_second_server_reads_nothing(room):
    """a second server opens neither slot, and none is opened before the lock is had"""
    may_trace()

    def calls(status):
        trace = room.path("trace")
        words = ["strace", "-f", "-o", trace, *room.words("--turns", "1")]
        ended = subprocess.run(words, stdin=subprocess.DEVNULL, stdout=subprocess.DEVNULL, check=False)
        same(ended.returncode, status, "status")
        with open(trace, encoding="utf-8", errors="replace") as lines:
            return [line.split(None, 1)[1] for line in lines]

    def slot_calls(lines):
        return [at for at, line in enumerate(lines) if "journal.0" in line or "journal.1" in line]

    with room.server() as server:
        server.turn()
        same(slot_calls(calls(5)), [], "calls on a slot by the second server")
    alone = calls(0)
    locked = next(at for at, line in enumerate(alone) if line.startswith("flock(") and line.rstrip().endswith("= 0"))
    want(slot_calls(alone) and min(slot_calls(alone)) > locked, "a slot was opened before the lock was had")


def a_lock_is_waited_for(room):
    """where something has the lock for a moment, as a command that is just started may, a server waits, and starts once it is let go"""
    os.mkdir(room.path("run"))
    lock = room.path("run/journal.lock")
    with open(lock, "wb") as held:
        fcntl.flock(held, fcntl.LOCK_EX)
        server = Server(room, [], {})
        try:
            wait_for(lambda: server.process.poll() is not None or lock in server.paths(), "the lock's file to be opened")
            time.sleep(0.3)
            same((server.text(), server.process.poll()), ("", None), "said, and the end, while something else has the lock")
            fcntl.flock(held, fcntl.LOCK_UN)
            server.wait_said(READY)
        finally:
            server.end()


def a_lock_goes_with_its_server(room):
    """where a server was killed the next one has the journal at once, also while a command of the first still runs"""
    act(room, actionban="test -e {flag} && echo ban again >> {done} && exit; touch {flag}; " + ENDLESS)
    with room.server() as server:
        ban(room)
        process = noted_process(room)
        kill(server)
    try:
        with room.server() as server:
            want(lives(process), "the command has ended with its server")
            wait_done(room, ["ban again"])
    finally:
        with contextlib.suppress(ProcessLookupError):
            os.kill(process, signal.SIGKILL)


def bans_go_on(room):
    """what was banned before kill -9 stays banned, with no line and no command for it, and the ban ends in its time"""
    act(room, bantime=40, actionstart="echo start >> {done}", actionban="echo ban <ip> >> {done}", actionunban="echo unban <ip> >> {done}")
    with room.server() as server:
        ban(room)
        server.wait_said(BAN)
        begin = server.moment(BAN)
        wait_done(room, ["start", f"ban {ADDRESS}"])
        wait_for(lambda: not children(server), "the end of all commands")
        server.turn()
        kill(server)
    for number in range(3):
        with room.server() as server:
            other = f"192.0.2.{100 + number}"
            if time.time() < begin + 30:
                write(room.log, failures(ADDRESS, other), "a")
                server.turn()
                same([line for line in server.said() if ADDRESS in line], [], "said of an address that is banned")
                want(found(other) in server.said(), "another address was not found")
            kill(server)
    same(content(room, "done"), f"start\nban {ADDRESS}\n", "commands")
    with room.server() as server:
        server.wait_said(UNBAN)
        want(server.moment(UNBAN) - begin >= 40, f"ended after {server.moment(UNBAN) - begin} s")
        wait_done(room, ["start", f"ban {ADDRESS}", f"unban {ADDRESS}"])
        server.turn()
    with room.server() as server:
        server.turn()
        same([line for line in server.said() if "Ban" in line or "Unban" in line], [], "bans of the next server")
    same(content(room, "done"), f"start\nban {ADDRESS}\nunban {ADDRESS}\n", "commands")


def a_ban_that_ended_meanwhile_is_lifted(room):
    """a ban that ends while no server runs is lifted by the first turn of the next one, with its command, and another goes on"""
    act(room, bantime=4, actionban="echo ban <ip> >> {done}", actionunban="echo unban <ip> >> {done}")
    write(room.path("conf/jail.local"), "[probe]\nbantime = 600\nmaxretry = 3\naction = note\n")
    with room.server() as server:
        ban(room)
        write(room.path("probe.log"), failures(*["192.0.2.9"] * 3), "a")
        wait_for(lambda: content(room, "done").count("ban") == 2, "both commands")
        begin = server.moment(BAN)
        wait_for(lambda: not children(server), "the end of all commands")
        server.turn()
        kill(server)
    wait_for(lambda: time.time() >= begin + 5, "the end of the ban", time.time)
    with room.server() as server:
        server.wait_said(UNBAN)
        same(server.said()[:2], [READY, UNBAN], "said first")
        wait_for(lambda: f"unban {ADDRESS}" in content(room, "done"), "the command that lifts")
        server.turn()
    same(sorted(content(room, "done").splitlines()), sorted([f"ban {ADDRESS}", "ban 192.0.2.9", f"unban {ADDRESS}"]), "commands")


def a_command_that_may_not_have_run_is_run(room):
    """a command that ran as the server was killed is run again, the one before it is not, and those that waited follow"""
    stays = 'echo "ban <ip>" >> {done}; test -e {flag} && exit; ' + ENDLESS
    act(room, actionstart="echo start >> {done}", actionban=stays)
    with room.server() as server:
        ban(room)
        process = noted_process(room)
        ban(room, "192.0.2.8")
        server.wait_said("NOTICE [web] Ban 192.0.2.8")
        server.turn()
        kill(server)
    want(lives(process), "the command has ended with its server")
    os.kill(process, signal.SIGKILL)
    write(room.path("flag"), "")
    with room.server() as server:
        wait_done(room, ["start", f"ban {ADDRESS}", f"ban {ADDRESS}", "ban 192.0.2.8"])
        wait_for(lambda: not children(server), "the end of all commands")
        server.turn()
        same(server.said(), [READY], "said")
    with room.server() as server:
        server.turn()
    same(content(room, "done").count("\n"), 4, "commands that were run")


def tries_are_kept(room):
    """a command that failed twice before kill -9 is tried once more, and then given up"""
    act(room, actionban="echo ban >> {done}; exit 1")
    failed, given_up = "ERROR [web/note] ban failed: status 1", "ERROR [web/note] ban given up"
    with room.server() as server:
        ban(room)
        server.wait_said(failed, 2)
        kill(server)
    with room.server() as server:
        server.wait_said(given_up)
        same(server.said(), [READY, failed, given_up], "said")
        server.turn()
    with room.server() as server:
        server.turn()
        same(server.said(), [READY], "said by the next server")
    same(content(room, "done"), "ban\n" * 3, "tries")


def logs_are_read_on(room):
    """failures that were counted before kill -9 count once, and those that were written meanwhile are found"""
    with room.server() as server:
        write(room.log, failures(ADDRESS, ADDRESS), "a")
        server.wait_said(found(), 2)
        kill(server)
    write(room.log, failures("192.0.2.8") + failures(ADDRESS)[:-1], "a")
    with room.server() as server:
        server.wait_said(found("192.0.2.8"))
        server.turn()
        same(server.said(), [READY, found("192.0.2.8")], "said")
        write(room.log, "\n", "a")
        server.wait_said(BAN)
        same(server.said(), [READY, found("192.0.2.8"), found(), BAN], "said")


def an_idle_start_writes_nothing(room):
    """a start that finds nothing new leaves both slots as they are, and a configuration that is another one is written"""
    a_good_journal(room)
    before = files(room)
    room.ends(0, [READY], "--conf", room.conf, "--turns", "4")
    same(files(room), before, "the journal's files")
    room.configure(maxretry=4)
    room.ends(0, [READY], "--conf", room.conf, "--turns", "4")
    held = slots.journal(*both(room))
    same(held.inputs[-1][2], "configuration", "the last input")
    same([jail["maxretry"] for jail in held.inputs[-1][3][1]], [4, 100_000], "maxretry")


def another_configuration_lets_in(room):
    """where another configuration has an action no longer, or no jail at all, a start with it lets in whom it keeps out, and stops it"""
    notes = {kind: f"echo {kind} <ip> >> {{done}}" for kind in ["start", "stop", "ban", "unban"]}
    for has_jails in [True, False]:
        act(room, bantime=600, **{f"action{kind}": text for kind, text in notes.items()})
        with room.server() as server:
            write(room.log, failures(*[ADDRESS] * 3), "a")
            wait_done(room, ["start", f"ban {ADDRESS}"])
            wait_for(lambda: not children(server), "the end of all commands")
            server.turn()
            kill(server)
        # Its commands are those that it had.
        os.remove(room.path("conf/action.d/note.conf"))
        room.configure(bantime=600)
        if not has_jails:
            os.remove(room.path("conf/jail.conf"))
        with room.server() as server:
            wait_done(room, ["start", f"ban {ADDRESS}", f"unban {ADDRESS}", "stop"])
            wait_for(lambda: not children(server), "the end of all commands")
            same(server.said(), [READY], "said")
        for name in ["done", "web.log", "probe.log", "run/journal.0", "run/journal.1"]:
            with contextlib.suppress(FileNotFoundError):
                os.remove(room.path(name))


def lines_come_behind_their_input(room):
    """before lines are said and a command is started the input is written, synced, closed, and synced again, and nothing else is between"""
    may_trace()
    act(room, bantime=6_000, actionstart="true", actionban="true")
    write(room.log, failures(*[ADDRESS] * 3))
    trace = room.path("trace")
    words = ["strace", "-f", "-e", "trace=write,fdatasync,fsync,execve", "-o", trace, *room.words("--turns", "20")]
    with open(room.path("said"), "wb") as said:
        subprocess.run(words, stdin=subprocess.DEVNULL, stdout=said, check=True)
    with open(trace, encoding="utf-8", errors="replace") as lines:
        calls = [line.split(None, 1)[1] for line in lines]
    kinds = [kind for kind in map(kind_of, calls[1:]) if kind]
    append = ["write", "sync", "gate", "sync"]
    # The directory is made and synced in the one above it, and itself before it is read; then the first slot, with a sync of its entry. Its view is opened; then comes the configuration, as an input.
    made = ["sync", "sync", "write", "sync", "sync", *append, *append, "say"]
    # The failures with their ban, the action's start, its end, the ban's command, and its end.
    same(kinds, [*made, *append, "say", "start", *append, "start", *append], "calls")


def a_stop_at_each_call(room):
    """a server that is killed at any of its calls on the disk, or whose sync fails there, leaves all that it said, and at most one thing more"""
    may_trace("-e", "trace=write", "-e", "inject=write:error=EIO:when=1")
    # The slot that counts may not grow, and the other one is open: so the first input changes slots by all its calls, and two are appended.
    first = slots.slot(slots.FIRST_VIEW, generation=5, version=1)
    second = slots.slot(slots.FIRST_VIEW, b"\x64\x00\x00", generation=4)
    write(room.log, failures(*[ADDRESS] * 3))
    write(room.path("probe.log"), failures("192.0.2.8"))
    start_quickly(room)
    lines = [READY, *[found()] * 3, BAN, "INFO [probe] Found 192.0.2.8"]
    # How many lines were told of so many inputs.
    told = [0, 1, 5, 6]
    words = room.words("--turns", "2")
    # The start syncs the directory and both slots; then come five syncs of a change with its input, and two of each further input.
    for call, fault, times in [("fsync", "error=EIO", 1), ("fdatasync", "error=EIO", 2 + 5 + 2 + 2), ("write", "signal=KILL", 12)]:
        for number in range(1, times + 1):
            place(room, first, second)
            how = ["strace", "-f", "-o", "/dev/null", "-e", f"trace={call}", "-e", f"inject={call}:{fault}:when={number}"]
            ended = subprocess.run([*how, *words], stdin=subprocess.DEVNULL, stdout=subprocess.PIPE, check=False)
            said = [line.split(" ", 1)[1] for line in ended.stdout.decode().splitlines()]
            what = f"{fault} at {call} {number}"
            if "EIO" in fault:
                same((ended.returncode, said[-1:]), (5, DISK), what)
                said.pop()
            want(ended.returncode, f"{what}: no fault came")
            same(said, lines[: len(said)], f"{what}: said")
            held = slots.journal(*both(room))
            # Version 1 has nothing of this run yet.
            kept = len(held.inputs) if held.generation == 6 else 0
            want(told[kept] == len(said) or kept > 0 and told[kept - 1] == len(said), f"{what}: {kept} inputs are kept, and said is {said}")
            status, text, _errors = room.run("--conf", room.conf, "--turns", "2")
            again = [line.split(" ", 1)[1] for line in text.splitlines()]
            same((status, again), (0, [READY, *lines[max(1, told[kept]) :]]), f"{what}: the next server, over {kept} inputs")


def a_sync_is_of_what_was_written(room):
    """at the start both slots are synced, and each write to a slot has a sync of that very file behind it, also where slots are changed"""
    may_trace()
    start_quickly(room)
    # The one of version 1 counts and may not grow, so the first input changes to the other one.
    old, other = slots.slot(slots.FIRST_VIEW, generation=5, version=1), slots.slot(slots.FIRST_VIEW, generation=4)
    trace = room.path("trace")
    words = ["strace", "-f", "-y", "-e", "trace=write,fdatasync", "-o", trace, *room.words("--turns", "2")]
    for changed, pair in [("1", (old, other)), ("0", (other, old))]:
        place(room, *pair)
        write(room.log, failures(ADDRESS))
        subprocess.run(words, stdin=subprocess.DEVNULL, stdout=subprocess.DEVNULL, check=True)
        with open(trace, encoding="utf-8", errors="replace") as lines:
            calls = [re.findall(r"(write|fdatasync)\(\d+<[^>]*/journal\.(\d)>", line) for line in lines]
        saw = [(call, slot) for found_in in calls for call, slot in found_in]
        # The change has three writes, and the configuration and the failure have two each.
        behind_the_start = [("write", changed), ("fdatasync", changed)] * 7
        same(saw, [("fdatasync", "0"), ("fdatasync", "1"), *behind_the_start], f"calls of a change to slot {changed}")


def kind_of(call):
    """What a call is for, or None."""
    if call.startswith(("fdatasync(", "fsync(")):
        return "sync"
    if call.startswith("execve("):
        return "start" if '"/bin/sh"' in call else None
    if call.startswith("write(1,"):
        return "say"
    if re.match(r'write\(\d+, "\\1", 1\b', call):
        return "gate"
    return "write" if call.startswith("write(") else None


def a_journal_of_random_bytes(room):
    """slots of 0 to 40 random bytes, and of random bytes behind a good beginning, are what the docs say, and stay as they are"""
    numbers = random.Random(29)
    good, _ = a_good_journal(room)
    statuses = set()
    for length in [0, 9, 16, 17, 18, 21, 26, 33, 40]:
        data = bytes(numbers.randrange(256) for _ in range(length))
        opened = b"\x01" + data[1:]
        begun = (b"\x01" + bytes(7) + b"\x07\x02" + data[10:])[:length]
        for first, second in [(data, None), (None, opened), (begun, b""), (good, begun), (begun, good)]:
            statuses.add(starts_so(room, first, second, f"{first!r} {second!r}"))
    same(statuses, {0, 6}, "statuses")


def a_journal_is_cut_or_turned(room):
    """a journal that is cut at some byte, or of which a byte is another one, is what the docs say"""
    numbers = random.Random(31)
    good, _ = a_good_journal(room)
    end = slots.Slot(good).end
    statuses = set()
    for length in [1, 16, 17, end, *numbers.sample(range(18, end), 12)]:
        statuses.add(starts_so(room, good[:length], None, f"{good!r} cut at {length}"))
    for at in [0, 1, 8, 9, 10, end, *numbers.sample(range(11, end), 14)]:
        turned = bytearray(good)
        turned[at] ^= 1 << numbers.randrange(8)
        statuses.add(starts_so(room, None, bytes(turned), f"{bytes(turned)!r} turned at {at}"))
    # What stands behind the closed gate is not looked at.
    same(starts_so(room, good + b"\xff" * 40, None, "bytes behind the closed gate"), 0, "status")
    same(statuses, {0, 6}, "statuses")


def two_slots_count(room):
    """of two open slots the greater generation counts, two of one generation are no journal, and a fault of the other slot is one"""
    good, _ = a_good_journal(room)
    later = slots.slot(slots.FIRST_VIEW, generation=2)
    same(starts_so(room, good, good, "twice the same"), 6, "status")
    same(starts_so(room, good, later[:-1], "the later one without its last gate"), 6, "status")
    same(starts_so(room, later, good, "the later one first"), 0, "status")
    same(starts_so(room, good, later, "the later one behind"), 0, "status")
    same(starts_so(room, good, b"\x00" + later[1:], "a later one that is closed"), 0, "status")
    # Over the later one the address is not banned, over the other it is.
    for pair, wanted in [((good, later), [found()] * 3 + [BAN]), ((good, b""), [])]:
        place(room, *pair)
        status, said, _errors = room.run("--conf", room.conf, "--turns", "3")
        same((status, [line.split(" ", 1)[1] for line in said.splitlines() if "web" in line]), (0, wanted), "said")


def version_1_is_read(room):
    """a journal of version 1 is read, and changes to version 2 in the other slot with the first input"""
    old = slots.slot(slots.FIRST_VIEW, b"\x64\x00\x00", generation=5, version=1)
    place(room, old, None)
    room.ends(0, [READY], "--conf", room.conf, "--turns", "2")
    first, second = both(room)
    held = slots.journal(first, second)
    same((first, held.generation, held.version, held.view["now"]), (old, 6, 2, 100), "slots")


def failures_of_version_1_count(room):
    """failures that a journal of version 1 has, one in its view and one in an input, count on: a third one bans"""
    start_quickly(room)
    # Slot 0 is so long that the second failure does not fit behind it.
    place(room, slots.slot(slots.FIRST_VIEW, *[b"\x64\x00\x00"] * 300), None)
    write(room.log, failures(ADDRESS))
    room.ends(0, [READY, found()], "--conf", room.conf, "--turns", "2")
    write(room.log, failures(ADDRESS), "a")
    room.ends(0, [READY, found()], "--conf", room.conf, "--turns", "2", "--journal-limit", str(len(both(room)[0]) + 10))
    old = slots.in_version_1(both(room)[1])
    held = slots.Slot(old)
    web, in_input = held.view["jails"][0], held.inputs[0][3][3]
    lines = [line for *_, line in [*web["failures"], *in_input]]
    same((held.version, len(web["failures"]), lines), (1, 1, ["", ""]), "the journal of version 1")
    place(room, None, old)
    write(room.log, failures(ADDRESS), "a")
    room.ends(0, [READY, found(), BAN], "--conf", room.conf, "--turns", "2")
    same(slots.journal(*both(room)).version, 2, "version")


def a_long_journal_is_read_in_pieces(room):
    """a start over a journal of 12 MiB, that counts or does not, takes less than 9 MiB more than one over none"""
    # Logs of long paths were read, of a jail that is not there.
    long = slots.slot(slots.FIRST_VIEW, *[slots.read_input(100, 0, "none", "x" * 60_000, 0, b"", [])] * 210, generation=2)
    took = []
    for pair in [(None, None), (long, None), (long, slots.slot(slots.FIRST_VIEW, generation=3))]:
        place(room, *pair)
        with room.server(env={**os.environ, "ASAN_OPTIONS": "quarantine_size_mb=1"}) as server:
            took.append(server.peak())
    want(max(took) - took[0] < 9 << 20, f"peaks of {took} bytes, the first one over no journal and the others over {len(long)} bytes")
    return f"{(max(took) - took[0]) >> 10} KiB more"


def numbers_are_used_up(room):
    """where generations, ids of jobs or serials of bans are used up the server says so, status 12, and what was kept stays"""
    room.configure(maxretry=1)
    last = 1 << 63
    # So long that no input may be appended, and the slots have to be changed.
    long = [b"\x64\x00\x00"] * 200
    for view, inputs, generation, limit, action in [
        (slots.FIRST_VIEW, long, slots.LAST_GENERATION, "800", False),
        (slots.FIRST_VIEW[:-2] + slots.number(last) + b"\x00", [], 1, "67108864", True),
        (slots.FIRST_VIEW[:-1] + slots.number(last), [], 1, "67108864", False),
    ]:
        if action:
            act(room, actionstart="echo start >> {done}")
        else:
            room.configure(maxretry=1)
        write(room.log, failures(ADDRESS))
        place(room, slots.slot(view, *inputs, generation=generation), None)
        status, said, _errors = room.run("--conf", room.conf, "--turns", "4", "--journal-limit", limit)
        same((status, said.splitlines()[-1].split(" ", 1)[1]), (12, SPENT), f"end, generation {generation}, limit {limit}")
        held = slots.journal(*both(room))
        same((held.generation, found() in said), (generation, False), "the slot that counts, and whether the failure was said")
    same(content(room, "done"), "", "commands")


def a_limit_of_one_byte(room):
    """where the limit leaves no room for the first input the server says what it needs, status 7, and makes no slot"""
    status, said, _errors = room.run("--conf", room.conf, "--journal-limit", "1")
    told = re.fullmatch(r"\d+ ERROR journal full: (\d+) of 1\n", said)
    want(status == 7 and told, f"status {status}, said {said!r}")
    same(os.listdir(room.path("run")), ["journal.lock"], "files")
    need = int(told[1])
    # The words of an input have another length now and then.
    status, said, _errors = room.run("--conf", room.conf, "--journal-limit", str(need - 6))
    same((status, os.listdir(room.path("run"))), (7, ["journal.lock"]), f"end with {need - 6} bytes, behind {said!r}")
    room.ends(0, [READY], "--conf", room.conf, "--turns", "2", "--journal-limit", str(need + 6))
    want(abs(len(both(room)[0]) - need) <= 6, f"slot 0 has {len(both(room)[0])} bytes, and {need} were told")


def a_full_journal(room):
    """a journal that gets full says what it needs, status 7, keeps what was said, and a higher limit goes on from it"""
    status, said, _errors = room.run("--conf", room.conf, "--turns", "1")
    limit = len(both(room)[0]) + 600
    counted = 0
    with room.server("--journal-limit", str(limit)) as server:
        for number in range(250):
            write(room.log, failures(f"192.0.2.{number}"), "a")
            wait_for(lambda: server.count(found(f"192.0.2.{number}")) or server.process.poll() is not None, "a failure, or the end")
            if server.process.poll() is not None:
                break
            counted = number + 1
        server.wait_ended(7)
        want(re.search(rf"ERROR journal full: \d+ of {limit}$", server.text().rstrip()), f"said {server.text()[-200:]!r}")
        want(counted > 5, f"{counted} failures were said")
        want(all(len(data) <= limit for data in both(room)), f"slots of {[len(data) for data in both(room)]} bytes with a limit of {limit}")
        want(all(both(room)), "slots were never changed")
    with room.server("--journal-limit", str(limit * 10)) as server:
        server.wait_said(found(f"192.0.2.{counted}"))
        server.turn()
        same(server.said()[1], found(f"192.0.2.{counted}"), "said first")
        write(room.log, failures(*["192.0.2.0"] * 2), "a")
        server.wait_said("NOTICE [web] Ban 192.0.2.0")


def slots_change_often(room):
    """with a low limit the slots are changed again and again, neither is ever longer, and nothing is lost by kill -9"""
    room.configure(maxretry=2, bantime=2)
    write(room.path("conf/fail2ban.conf"), SERVER.format(place=room.place) + "dbpurgeage = 0\n")
    room.ends(0, [READY], "--conf", room.conf, "--turns", "1")
    limit = len(both(room)[0]) * 2 + 1_200
    most, generations = 0, set()
    for round_of in range(4):
        with room.server("--journal-limit", str(limit)) as server:
            for number in range(15):
                address = f"198.51.100.{round_of * 15 + number}"
                write(room.log, failures(address), "a")
                server.wait_said(found(address))
            most = max(most, *(len(data) for data in both(room)))
            kill(server)
        generations.add(slots.journal(*both(room)).generation)
        # One failure more of the last one, before and behind kill -9, bans it.
        with room.server("--journal-limit", str(limit)) as server:
            write(room.log, failures(address), "a")
            server.wait_said(f"NOTICE [web] Ban {address}")
            server.wait_said(f"NOTICE [web] Unban {address}")
    want(most <= limit, f"a slot of {most} bytes with a limit of {limit}")
    want(len(generations) >= 2, f"generations {generations}")


def a_directory_may_not_be_written(room):
    """where the journal's directory, a slot or the lock may not be written the server says so, status 5, and changes nothing"""
    how = room.as_nobody()
    run = room.path("run")
    if how:
        os.chown(run, 0, 0)
    os.chmod(run, 0o555)
    room.ends(5, DISK, "--conf", room.conf, "--turns", "2", **how)
    same(os.listdir(run), [], "files")
    write(room.path("conf/fail2ban.conf"), f"[Definition]\nsocket = {run}/deeper/fail2ban.sock\n")
    room.ends(5, DISK, "--conf", room.conf, "--turns", "2", **how)
    room.configure()
    os.chmod(run, 0o755)
    if how:
        os.chown(run, NOBODY, NOBODY)
    room.ends(0, [READY], "--conf", room.conf, "--turns", "2", **how)
    before = files(room)
    for name in ["journal.0", "journal.lock"]:
        path = room.path(f"run/{name}")
        os.chmod(path, 0o400)
        if how:
            os.chown(path, 0, 0)
        room.ends(5, DISK, "--conf", room.conf, "--turns", "2", **how)
        same(files(room), before, "the journal's files")
        os.chmod(path, 0o600)
        if how:
            os.chown(path, NOBODY, NOBODY)
    room.ends(0, [READY], "--conf", room.conf, "--turns", "2", **how)


def a_slot_is_another_kind(room):
    """a directory, a pipe and a link in a circle in the place of a slot, of the lock or of the directory are faults of the disk"""
    makes = [os.mkdir, os.mkfifo, lambda path: os.symlink(path, path)]
    for number, make in enumerate(makes):
        for name in ["run/journal.0", "run/journal.1", "run/journal.lock", "run"]:
            shutil.rmtree(room.path("run"), ignore_errors=True)
            if name == "run" and number == 0:
                continue
            if name != "run":
                os.mkdir(room.path("run"))
            # A pipe may be locked like any file.
            if name == "run/journal.lock" and number == 1:
                continue
            make(room.path(name))
            room.ends(5, DISK, "--conf", room.conf, "--turns", "2")
            with contextlib.suppress(OSError):
                os.remove(room.path(name))


def a_disk_gets_full(room):
    """where the disk is full in the middle of an input the server says so, status 5, and goes on from all that it said"""
    ready = len(a_good_journal(room)[0])
    write(room.log, "")
    lasting = 0
    for more in [0, 1, 40, 110, 111, 150, 400]:
        limit = ready + more

        def full():
            resource.setrlimit(resource.RLIMIT_FSIZE, (limit, limit))

        shutil.rmtree(room.path("run"))
        write(room.log, failures(*[f"192.0.2.{number}" for number in range(1, 3)]))
        reader, writer = os.pipe()
        process = subprocess.Popen(room.words(), stdin=subprocess.DEVNULL, stdout=writer, preexec_fn=full, restore_signals=False)
        os.close(writer)
        try:
            # More and more is found, until no more may be written.
            number, end = 2, time.monotonic() + 120
            while process.poll() is None:
                want(time.monotonic() < end, f"a limit of {limit} bytes was not come to")
                number += 1
                write(room.log, failures(f"192.0.2.{number}"), "a")
                time.sleep(0.1)
            with os.fdopen(reader, "rb") as pipe:
                said = [line.split(" ", 1)[1] for line in pipe.read().decode().splitlines()]
        finally:
            process.kill()
            process.wait()
        same((process.returncode, said[-1:]), (5, DISK), f"end with a limit of {limit}")
        same(len(both(room)[0]), limit, "bytes of the slot that could not be written whole")
        held = slots.journal(*both(room))
        reads = [one[3] for one in held.inputs if one[2] == "read"]
        kept = [f"INFO [{jail}] Found {address}" for jail, _path, _place, found_in in reads for address, _at, _line in found_in]
        same([line for line in said if "Found" in line], kept, "failures that were said, and those that are kept")
        with room.server() as server:
            server.wait_said(found(f"192.0.2.{number}"))
            said_then = [line for line in server.said() if "web" in line]
            kept = [line for line in kept if "web" in line]
            same(kept + said_then, [found(f"192.0.2.{each}") for each in range(1, number + 1)], "failures of both servers")
        lasting += len(kept)
    want(lasting > 0, "nothing was kept")


def mounts(mounted, size):
    """The words that start a program to which a small disk is mounted there."""
    user = [] if os.geteuid() == 0 else ["--map-root-user"]
    makes = f'mount -t tmpfs -o size={size} none "$1" && mkdir "$1/run" && shift && exec "$@"'
    starter = ["unshare", *user, "--mount", "sh", "-c", makes, "sh", mounted]
    probed = subprocess.run([*starter, "true"], capture_output=True, check=False)
    if probed.returncode != 0:
        raise Skipped("no file system may be mounted here")
    return starter


def a_small_disk(room):
    """on a small disk that gets full, and is made larger, the next server goes on from all that was said"""
    mounted = room.path("small")
    os.mkdir(mounted)
    starter = mounts(mounted, "16k")
    write(room.path("conf/fail2ban.conf"), f"[Definition]\nsocket = {mounted}/run/fail2ban.sock\n")
    addresses = [f"198.51.{number // 250}.{number % 250 + 1}" for number in range(2_000)]
    # Some hundred failures a look, so that it takes some looks until the disk is full.
    write(room.log, "".join(line + "x" * 600 + "\n" for line in failures(*addresses).splitlines(keepends=True)))
    twice = '"$@"; echo "status $?"; mount -o remount,size=1m none "$0" && "$@"; echo "status $?"'
    words = [*starter, "sh", "-c", twice, mounted, *room.words("--turns", "40")]
    ended = subprocess.run(words, stdin=subprocess.DEVNULL, capture_output=True, check=False)
    lines = [line if line.startswith("status") else line.split(" ", 1)[1] for line in ended.stdout.decode().splitlines()]
    marks = [line for line in lines if "Found" not in line]
    same(marks, [READY, *DISK, "status 5", READY, "status 0"], f"said beside failures, and {ended.stderr.decode()[:500]!r}")
    same([line for line in lines if "Found" in line], [found(address) for address in addresses], "failures of both servers")
    want(lines.index("status 5") > 100, "the disk was full before a failure was said")


def a_disk_may_not_be_written(room):
    """where the disk has become one that may only be read a start says so, status 5, and both slots stay as they are"""
    mounted = room.path("small")
    os.mkdir(mounted)
    starter = mounts(mounted, "1m")
    write(room.path("conf/fail2ban.conf"), f"[Definition]\nsocket = {mounted}/run/fail2ban.sock\n")
    ends, remounts = '"$@"; echo "status $?"', 'mount -o remount,ro none "$0"'
    twice = f'cd "$0/run"; {ends}; cat * >"$0/../before"; {remounts} && {ends}; cat * | cmp - "$0/../before"'
    words = [*starter, "sh", "-c", twice, mounted, *room.words("--turns", "2")]
    ended = subprocess.run(words, stdin=subprocess.DEVNULL, capture_output=True, check=False)
    lines = [line if line.startswith("status") else line.split(" ", 1)[1] for line in ended.stdout.decode().splitlines()]
    what = f"said, and whether the slots are the same, behind {ended.stderr.decode()[:500]!r}"
    same((lines, ended.returncode), ([READY, "status 0", *DISK, "status 5"], 0), what)
    want(os.path.getsize(room.path("before")) > 100, "nothing was written before")


CHECKS = [
    files_are_the_owners_alone,
    a_directory_stays_as_it_is,
    a_second_server_is_refused,
    a_second_server_reads_nothing,
    a_lock_is_waited_for,
    a_lock_goes_with_its_server,
    bans_go_on,
    a_ban_that_ended_meanwhile_is_lifted,
    a_command_that_may_not_have_run_is_run,
    tries_are_kept,
    logs_are_read_on,
    an_idle_start_writes_nothing,
    another_configuration_lets_in,
    lines_come_behind_their_input,
    a_stop_at_each_call,
    a_sync_is_of_what_was_written,
    a_journal_of_random_bytes,
    a_journal_is_cut_or_turned,
    two_slots_count,
    version_1_is_read,
    failures_of_version_1_count,
    a_long_journal_is_read_in_pieces,
    numbers_are_used_up,
    a_limit_of_one_byte,
    a_full_journal,
    slots_change_often,
    a_directory_may_not_be_written,
    a_slot_is_another_kind,
    a_disk_gets_full,
    a_small_disk,
    a_disk_may_not_be_written,
]
