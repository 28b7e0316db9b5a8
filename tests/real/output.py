"""Standard output that is closed, full, slow or gone."""

import fcntl
import os
import resource
import subprocess
import time

from room import among_others, failures, same, wait_for, want, write

# A pipe holds so many bytes at least.
PAGE = 4_096


def output_is_full(room):
    """where the disk of standard output is full the server ends with status 9, also after --help"""
    for words in [["--conf", room.conf], ["--help"], ["--version"], []]:
        with open("/dev/full", "wb") as full:
            status, _said, errors = room.run(*words, stdout=full)
        same((status, errors), (9, ""), f"{words}")


def output_becomes_full(room):
    """where the disk of standard output becomes full in the middle of some lines the server ends with status 9"""
    write(room.log, failures(*[f"192.0.2.{number}" for number in range(1, 101)]))

    # The limit is one for all files. So the output goes on far behind the beginning of its file, and the journal stays well below that.
    before = 1 << 20

    def limit():
        resource.setrlimit(resource.RLIMIT_FSIZE, (before + 200, before + 200))

    # The signal of that limit stays ignored, as it is here, so that writes end as on a full disk.
    with open(room.path("said"), "wb") as said:
        said.seek(before)
        status, _said, errors = room.run(*room.words()[1:], stdout=said, preexec_fn=limit, restore_signals=False)
    same((status, errors), (9, ""), "end")
    same(os.path.getsize(room.path("said")), before + 200, "bytes that were written")


def output_is_closed(room):
    """where standard output is closed at the start the server ends with status 9, and writes into no file, whatever else is closed"""
    write(room.log, failures("192.0.2.7"))
    for closed in [(1,), (0, 1), (1, 2), (0, 1, 2)]:

        def close():
            for number in closed:
                os.close(number)

        for words in [["--conf", room.conf], ["--version"]]:
            status, _said, errors = room.run(*words, stdin=None, stdout=None, preexec_fn=close)
            same((status, errors), (9, ""), f"{words} without {closed}")
    same(os.path.getsize(room.log), len(failures("192.0.2.7")), "bytes of the log")
    same(os.path.getsize(room.path("run/journal.lock")), 0, "bytes of the lock")
    # What was not said is kept all the same, and the journal is one.
    room.ends(0, ["INFO Server ready", "INFO [web] Found 192.0.2.7"], "--conf", room.conf, "--turns", "2")


def reader_has_gone(room):
    """where nobody reads the pipe any more the server ends with status 9, and not by a signal"""
    process = subprocess.Popen(room.words(), stdin=subprocess.DEVNULL, stdout=subprocess.PIPE)
    try:
        want(process.stdout.readline().endswith(b" INFO Server ready\n"), "no first line")
        process.stdout.close()
        write(room.log, failures("192.0.2.7"), "a")
        wait_for(lambda: process.poll() is not None, "the end")
        same(process.returncode, 9, "status")
    finally:
        process.kill()
        process.wait()


def slow(room, blocking):
    """Reads a small pipe slowly, whose end that the server writes to waits or would block."""
    addresses = [f"198.51.{number // 250}.{number % 250 + 1}" for number in range(2_000)]
    read_end, write_end = os.pipe()
    os.set_blocking(write_end, blocking)
    process = subprocess.Popen(room.words(), stdin=subprocess.DEVNULL, stdout=write_end)
    os.close(write_end)
    try:
        fcntl.fcntl(read_end, getattr(fcntl, "F_SETPIPE_SZ", 1031), PAGE)
        with os.fdopen(read_end, "rb", buffering=0) as said_by:
            want(said_by.readline().endswith(b" INFO Server ready\n"), "no first line")
            # Dates that are ahead count as now: on a slow machine the last lines would be too old.
            write(room.log, among_others(failures(*addresses, ahead=3_600), 5), "a")
            time.sleep(2)
            said = b""
            while said.count(b"\n") < len(addresses):
                piece = said_by.read(PAGE)
                want(piece, f"the server ended with {process.poll()}")
                said += piece
            found = [line.split(" ", 1)[1] for line in said.decode().splitlines()]
            want(found == [f"INFO [web] Found {address}" for address in addresses], "lines are lost, cut or in another order")
            write(room.log, failures("192.0.2.7"), "a")
            want(said_by.readline().endswith(b" INFO [web] Found 192.0.2.7\n"), "no line behind the others")
    finally:
        process.kill()
        process.wait()


def reader_is_slow(room):
    """where the reader of a pipe is slow the server waits, and each line comes whole and in order"""
    slow(room, blocking=True)


def output_would_block(room):
    """where standard output would block the server waits too, and each line comes whole and in order"""
    slow(room, blocking=False)


def pauses(number):
    """How often a process has waited so far, as the system counts it."""
    with open(f"/proc/{number}/status", encoding="utf-8") as file:
        return [line for line in file if line.startswith("voluntary")]


def nobody_takes_the_output(room):
    """where standard output would block for a minute the server ends with status 9, and not before"""
    write(room.log, failures(*[f"198.51.100.{number}" for number in range(200)]))
    read_end, write_end = os.pipe()
    os.set_blocking(write_end, False)
    fcntl.fcntl(write_end, getattr(fcntl, "F_SETPIPE_SZ", 1031), PAGE)
    begin = time.monotonic()
    process = subprocess.Popen(room.words(), stdin=subprocess.DEVNULL, stdout=write_end)
    try:
        # On a busy machine its pauses are longer, and so is the minute.
        wait_for(lambda: process.poll() is not None, "the end", lambda: pauses(process.pid))
        same(process.returncode, 9, "status")
        want(time.monotonic() - begin >= 60, "a minute is not over")
    finally:
        process.kill()
        process.wait()
        os.close(write_end)
        os.close(read_end)


def input_is_closed(room):
    """a server whose standard input and errors are closed runs as any other"""
    def close():
        os.close(0)
        os.close(2)

    write(room.log, failures("192.0.2.7"))
    with open(room.path("said"), "wb") as said:
        process = subprocess.Popen(room.words("--turns", "2"), stdout=said, stdin=None, stderr=None, preexec_fn=close)
        same(process.wait(), 0, "status")
    with open(room.path("said"), encoding="utf-8") as said:
        lines = [line.split(" ", 1)[1] for line in said.read().splitlines()]
    same(lines, ["INFO Server ready", "INFO [web] Found 192.0.2.7"], "said")


CHECKS = [
    output_is_full,
    output_becomes_full,
    output_is_closed,
    reader_has_gone,
    reader_is_slow,
    output_would_block,
    nobody_takes_the_output,
    input_is_closed,
]
