"""The real clock, pauses, and what an idle server costs."""

import os
import re
import subprocess
import time

from room import LONG_PATIENCE, among_others, failures, may_trace, same, want, write


def moment_is_that_of_the_machine(room):
    """each line has the second of the machine's clock, within two seconds, in whatever zone the machine is"""
    before = int(time.time())
    with room.server(env={**os.environ, "TZ": "America/New_York"}) as server:
        after = int(time.time())
        ready = server.moment("INFO Server ready")
        want(before - 2 <= ready <= after + 2, f"ready at {ready}, started from {before} to {after}")
        for address in ["192.0.2.1", "192.0.2.2", "192.0.2.3"]:
            time.sleep(1)
            before = int(time.time())
            write(room.log, failures(address), "a")
            server.wait_said(f"INFO [web] Found {address}")
            after = int(time.time())
            found = server.moment(f"INFO [web] Found {address}")
            want(before - 2 <= found <= after + 2, f"found at {found}, written from {before} to {after}")


def dates_of_the_log_count(room):
    """a failure of twelve minutes ago does not count, one of eight minutes ago does"""
    now = int(time.time())
    write(room.log, f"{now - 720} fail from 192.0.2.1\n{now - 480} fail from 192.0.2.2\n")
    with room.server() as server:
        server.wait_said("INFO [web] Found 192.0.2.2")
        server.turn()
        same(server.count("INFO [web] Found 192.0.2.1"), 0, "failures of twelve minutes ago")


def ban_ends_in_time(room):
    """a ban of three seconds ends after three seconds, and not before"""
    room.configure(maxretry=1, bantime=3)
    with room.server() as server:
        write(room.log, failures("192.0.2.7"), "a")
        server.wait_said("NOTICE [web] Unban 192.0.2.7")
        lasted = server.moment("NOTICE [web] Unban 192.0.2.7") - server.moment("NOTICE [web] Ban 192.0.2.7")
        want(3 <= lasted, f"lasted {lasted} s")


def idle_turns(room, turns):
    """How long a server took for so many turns, and how much processor time it used."""
    begin = time.monotonic()
    process = subprocess.Popen(room.words("--turns", str(turns)), stdin=subprocess.DEVNULL, stdout=subprocess.DEVNULL)
    _pid, status, usage = os.wait4(process.pid, 0)
    process.returncode = os.waitstatus_to_exitcode(status)
    same(process.returncode, 0, "status")
    return time.monotonic() - begin, usage.ru_utime + usage.ru_stime


def pauses_are_made(room):
    """ten turns of an idle server take two seconds and a quarter at least, and little processor time"""
    write(room.log, failures("192.0.2.7"))
    took, used = idle_turns(room, 10)
    want(2.25 <= took, f"took {took:.2f} s")
    want(used <= 1, f"used {used:.2f} s of processor time")


def pauses_are_made_again(room):
    """a server that has read a long log pauses as any other"""
    write(room.log, "nothing\n" * 32_768)
    looks = os.path.getsize(room.log) // 65_536
    took, _used = idle_turns(room, looks + 10)
    want(2.25 <= took, f"took {took:.2f} s")


def traced(room, *more, turns):
    """The calls of a server that makes so many turns, each as strace shows it."""
    may_trace()
    trace = room.path("trace")
    words = ["strace", "-f", "-o", trace, *more, *room.words("--turns", str(turns))]
    with open(room.path("said"), "wb") as said:
        ended = subprocess.run(words, stdin=subprocess.DEVNULL, stdout=said, timeout=LONG_PATIENCE, check=False)
    same(ended.returncode, 0, "status")
    with open(trace, encoding="utf-8", errors="replace") as lines:
        return [line.split(None, 1)[1] for line in lines]


def is_pause(call):
    """Whether a call sleeps, or waits for a client."""
    return "sleep" in call or re.match(r"epoll_p?wait", call) is not None


def slept(call):
    """How many seconds a call that is a pause asked for."""
    waited = re.match(r"epoll_p?wait\(\d+, \[.*\], \d+, (\d+)", call)
    if waited:
        return int(waited[1]) / 1e3
    asked = re.search(r"\{tv_sec=(\d+), tv_nsec=(\d+)\}", call)
    return int(asked[1]) + int(asked[2]) / 1e9 if asked else 0


def idle_server_calls_little(room):
    """an idle server opens each log once a turn, writes nothing, makes few calls, and asks for pauses of a quarter of a second a turn"""
    write(room.log, failures("192.0.2.7"))
    calls = traced(room, turns=12)
    opened = sum(f'"{room.log}"' in call and call.startswith("open") for call in calls)
    same(opened, 12, "times that the log was opened")
    ready = max(at for at, call in enumerate(calls) if call.startswith("write(1"))
    pauses = [at for at, call in enumerate(calls) if at > ready and is_pause(call)]
    want(pauses, "no pause")
    idle = calls[pauses[0] : pauses[-1]]
    writes = [call for call in idle if re.match(r"write|pwrite|send", call)]
    same(writes, [], "writes of an idle server")
    want(len(idle) <= 12 * 100, f"{len(idle)} calls in 12 turns")
    # What it asks for, and not how long that took: a busy machine wakes it late.
    asked = sum(slept(calls[at]) for at in pauses)
    want(2.9 <= asked <= 3.1, f"asked for {asked} s of pauses in 12 turns")


def many_logs_are_asked_about_seldom(room):
    """an idle server that follows sixty logs asks about each of them at most six times a turn"""
    for number in range(60):
        write(room.path(f"many-{number}.log"), "nothing\n")
    room.configure(log=room.path("many-*.log"))
    calls = traced(room, turns=12)
    asked = sum(f'"{room.path("many-7.log")}"' in call for call in calls)
    want(12 <= asked <= 72, f"asked {asked} times about a log in 12 turns")


def long_log_is_read_at_once(room):
    """a log that is long at the start is read without pauses, each look's lines in one write"""
    # Few of the lines are failures, so that a slow machine comes to the last one before it is too old to count.
    addresses = [f"198.51.{number // 250}.{number % 250 + 1}" for number in range(1_000)]
    write(room.log, among_others(failures(*addresses), 12))
    looks = os.path.getsize(room.log) // 65_536 + 1
    calls = traced(room, turns=looks)
    writes = [at for at, call in enumerate(calls) if call.startswith("write(1")]
    same(len(writes), 1 + looks, "writes: the server is ready, and a look's lines")
    pauses = sum(is_pause(call) for call in calls[: writes[-1]])
    same(pauses, 0, "pauses before the last of the lines")


CHECKS = [
    moment_is_that_of_the_machine,
    dates_of_the_log_count,
    ban_ends_in_time,
    pauses_are_made,
    pauses_are_made_again,
    idle_server_calls_little,
    many_logs_are_asked_about_seldom,
    long_log_is_read_at_once,
]
