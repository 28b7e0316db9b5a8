"""The client over real sockets: servers that speak in pieces, are cut off, are silent, or are none."""

import contextlib
import fcntl
import os
import re
import resource
import socket
import subprocess
import threading
import time

from room import LONG_PATIENCE, PATIENCE, as_nobody, has_checks, may_trace, same, wait_for, want, write

PING = b"\0\0\0\6\0\4ping"
PONG = b"\0\0\0\5\0pong"
REFUSED = b"\0\0\0\x10\1Invalid command"

# For so many seconds a server may say nothing, and one that has no room may stay so.
SILENCE = 30
NO_ROOM = 60

# The most bytes of a reply's text.
LONGEST = 67_108_864

# A pipe holds so many bytes at least.
PAGE = 4_096


def reply(text, verdict=b"\0"):
    body = verdict + text
    return len(body).to_bytes(4, "big") + body


def ends(room, status, said, *words, **how):
    """Runs the client to its end, and wants this status and this text, and no errors."""
    saw, text, errors = room.run(*words, program=room.client, **how)
    same((saw, text if said is not None else None, errors), (status, said, ""), f"{words}"[:200])


def naps():
    """How much longer than they should a hundred pauses of the length that the client makes take here now, as a factor."""
    begin = time.monotonic()
    for _ in range(100):
        time.sleep(0.01)
    return time.monotonic() - begin


class Serving:
    """A server at a socket in the room, which takes one client after another in the same way."""

    def __init__(self, room, meets, backlog=None):
        self.path = room.path("socket")
        self.asked = []
        self.meets = meets
        self.listener = socket.socket(socket.AF_UNIX)
        self.listener.bind(self.path)
        self.listener.listen() if backlog is None else self.listener.listen(backlog)
        self.thread = threading.Thread(target=self.take, daemon=True)

    def take(self):
        while True:
            try:
                conn, _ = self.listener.accept()
            except OSError:
                return
            with conn, contextlib.suppress(BrokenPipeError, ConnectionResetError):
                self.meets(self, conn)

    def read(self, conn):
        """Reads one request, and keeps its frame."""
        frame = b""
        while len(frame) < 4 or len(frame) < 4 + int.from_bytes(frame[:4], "big"):
            piece = conn.recv(1 << 16)
            if not piece:
                break
            frame += piece
        self.asked.append(frame)


@contextlib.contextmanager
def served(room, *pieces, pause=0.0):
    """A server that reads one request of each client, and says these pieces."""

    def meets(serving, conn):
        serving.read(conn)
        for piece in pieces:
            conn.sendall(piece)
            time.sleep(pause)

    with met(room, meets) as serving:
        yield serving


@contextlib.contextmanager
def met(room, meets):
    serving = Serving(room, meets)
    serving.thread.start()
    try:
        yield serving
    finally:
        # Whoever waits for a client is woken by that.
        serving.listener.shutdown(socket.SHUT_RDWR)
        serving.listener.close()
        os.remove(serving.path)


def help_is_asked_for(room):
    """the client answers --help and --version, or -h and -V, with their text and status 0"""
    for word in ["--help", "-h"]:
        status, said, errors = room.run(word, program=room.client)
        same((status, said[:28], errors), (0, "Usage: fail2ban-client [-q] ", ""), word)
    for word in ["--version", "-V"]:
        status, said, errors = room.run(word, program=room.client)
        same((status, said[:16], said.count("\n"), errors), (0, "fail2ban-client ", 1, ""), word)


def versions_are_one(room):
    """the programs have one version"""
    said = [room.run("--version", program=program)[1].split() for program in [room.program, room.client, room.tester] if program]
    same([words[0] for words in said], ["fail2ban-server", "fail2ban-client", "fail2ban-regex"][: len(said)], "names")
    same({tuple(words[1:]) for words in said}, {(said[0][1],)}, "versions")


def words_are_wrong(room):
    """the client asks no server where its words ask for nothing, are too long or are no UTF-8: status 2"""
    with served(room, PONG) as serving:
        at = ("-s", serving.path)
        for words in [
            [],
            ["-s"],
            [*at],
            ["-d"],
            ["-t"],
            ["--str2sec"],
            ["--str2sec", "5q"],
            ["--str2sec", "1h", "30m"],
            [*at, b"\xff"],
            ["--help", b"\xff"],
            ["-V", "more", b"\xff"],
            [*at, "x" * 65_535],
            [*at, "x" * 32_767, "x" * 32_766],
        ]:
            ends(room, 2, "", *words)
        same(serving.asked, [], "requests")
        ends(room, 0, "pong\n", *at, "x" * 65_534)
        same([len(frame) for frame in serving.asked], [65_540], "the longest request")


def seconds_are_printed(room):
    """the client prints the seconds of a time without a server"""
    for word, seconds in [("1h", 3600), ("600", 600), ("1d 12h30m", 131_400), (" 1mo ", 2_629_800), ("-1", -1), ("0", 0)]:
        ends(room, 0, f"{seconds}\n", "--str2sec", word)


def reply_comes_in_pieces(room):
    """the client prints a reply once it is whole, however it comes, and sends its words as one request"""
    text = "a\tb\n\u00e9\u20ac".encode()
    with served(room, *(reply(text)[place : place + 1] for place in range(len(reply(text)))), pause=0.02) as serving:
        ends(room, 0, text.decode() + "\n", "-s", serving.path, "set", "", "caf\u00e9")
        same(serving.asked, [b"\0\0\0\x0e\0\3set\0\0\0\5caf\xc3\xa9"], "request")
    with served(room, reply(b"one") + reply(b"two")) as serving:
        ends(room, 0, "one\n", "-s", serving.path, "status")


def ping_is_answered(room):
    """the client tells of a ping that was accepted that the server replied"""
    with served(room, PONG) as serving:
        ends(room, 0, "Server replied: pong\n", "-s", serving.path, "ping")
        same(serving.asked, [PING], "request")
        ends(room, 0, "pong\n", "-s", serving.path, "ping", "ping")
    with served(room, reply(b"")) as serving:
        ends(room, 0, "Server replied: pong\n", "-s", serving.path, "ping")
        ends(room, 0, "\n", "-s", serving.path, "banned")


def request_is_refused(room):
    """the client prints why a request is refused, and ends with status 1"""
    with served(room, REFUSED) as serving:
        ends(room, 1, "Invalid command\n", "-s", serving.path, "pong")
        ends(room, 1, "Invalid command\n", "-s", serving.path, "ping")


def a_quiet_client_prints_refusals_alone(room):
    """with -q, in front of the socket or behind it, the client prints nothing of a request that is accepted, and why one is refused"""
    with served(room, PONG) as serving:
        ends(room, 0, "", "-q", "-s", serving.path, "ping")
        ends(room, 0, "", "-s", serving.path, "-q", "ping")
        same(serving.asked, [PING, PING], "requests")
        for words in [["-q"], ["-s", serving.path, "-q"], ["-q", "--str2sec", "1h"], ["-q", "-t"]]:
            ends(room, 2, "", *words)
        # What is not printed needs no standard output.
        ends(room, 0, None, "-q", "-s", serving.path, "ping", stdout=None, preexec_fn=lambda: os.close(1))
    with served(room, REFUSED) as serving:
        ends(room, 1, "Invalid command\n", "-q", "-s", serving.path, "pong")
    ends(room, 8, "", "-q", "-s", room.path("missing"), "ping")


def reply_is_long(room):
    """the client prints a reply of some millions of bytes whole, and one of the most that there may be (but one with checks)"""
    text = b"".join(b"192.0.2.%d " % (number % 256) for number in range(300_000))
    with served(room, reply(text)) as serving:
        ends(room, 0, text.decode() + "\n", "-s", serving.path, "banned")
    if has_checks(room.client):
        return
    with served(room, reply(b"x" * LONGEST)) as serving, open(room.path("said"), "wb") as said:
        ends(room, 0, "", "-s", serving.path, "banned", stdout=said)
    with open(room.path("said"), "rb") as said:
        want(said.read() == b"x" * LONGEST + b"\n", "the longest reply was not printed as it is")


def reply_is_cut(room):
    """a server that ends before its reply is whole is status 13, also one that has not read the request, and nothing is printed"""
    for count in range(len(PONG)):
        with served(room, PONG[:count]) as serving:
            ends(room, 13, "", "-s", serving.path, "ping")

    def looks_away(_serving, conn):
        conn.recv(1, socket.MSG_PEEK)

    with met(room, looks_away) as serving:
        ends(room, 13, "", "-s", serving.path, "ping")


def reply_is_none(room):
    """bytes that are no reply are status 12, and nothing is printed of them"""
    for bad in [reply(b"x", b"\2"), b"\0\0\0\0", b"\4\0\0\2", b"HTTP/1.1 400 Bad Request\r\n", reply(b"\xff"), reply(b"", b"")]:
        with served(room, bad) as serving:
            ends(room, 12, "", "-s", serving.path, "ping")


def nobody_is_there(room):
    """a socket that is not there, was left behind, is another file or may not be opened, and a path that is none, are status 8"""
    write(room.path("file"), "")
    left = socket.socket(socket.AF_UNIX)
    left.bind(room.path("left"))
    left.close()
    for path in [room.path("missing"), room.path("file"), room.path("file/x"), room.place, room.path("left"), "", "/" + "x" * 199]:
        ends(room, 8, "", "-s", path, "ping")
    with served(room, PONG) as serving:
        os.chmod(serving.path, 0)
        ends(room, 8, "", "-s", serving.path, "ping", **as_nobody())
        same(serving.asked, [], "requests")


def server_is_silent(room):
    """a server that says nothing for half a minute is status 8, not before and not much later"""

    def waits(serving, conn):
        serving.read(conn)
        conn.sendall(PONG[:6])
        conn.recv(1)

    with met(room, waits) as serving:
        begin = time.monotonic()
        ends(room, 8, "", "-s", serving.path, "ping")
        took = time.monotonic() - begin
        want(SILENCE - 1 <= took <= SILENCE + 15, f"ended after {took:.1f} s")
        same(serving.asked, [PING], "requests")


def server_is_slow(room):
    """a server that says something now and then is waited for, however long its reply takes in all"""
    text = b"x" * 5
    frame = reply(text)
    pieces = [frame[:2], frame[2:4], frame[4:7], frame[7:]]
    with served(room, *pieces, pause=SILENCE / 3.5) as serving:
        begin = time.monotonic()
        ends(room, 0, "xxxxx\n", "-s", serving.path, "status")
        want(time.monotonic() - begin >= SILENCE / 3.5 * 3, "it was not slow")


def server_has_no_room(room):
    """a server that takes no client is waited for a minute, and then, not much later, it is status 8"""
    serving = Serving(room, None, backlog=0)
    waiting = []
    try:
        # Those that fill the queue of whom nobody takes.
        with contextlib.suppress(BlockingIOError):
            for _ in range(16):
                waiting.append(socket.socket(socket.AF_UNIX))
                waiting[-1].setblocking(False)
                waiting[-1].connect(serving.path)
        slower, begin = naps(), time.monotonic()
        ends(room, 8, "", "-s", serving.path, "ping")
        took = time.monotonic() - begin
        # A busy machine wakes it late, a hundred times a second.
        slower = max(slower, naps())
        want(NO_ROOM - 1 <= took <= NO_ROOM * slower + 30, f"ended after {took:.1f} s, where pauses take {slower:.1f} times as long as they should")
    finally:
        for each in [*waiting, serving.listener]:
            each.close()


def output_is_none(room):
    """where the reply cannot be printed the client ends with status 9, and says nothing more to the server"""
    after = []

    def hears_more(serving, conn):
        serving.read(conn)
        conn.sendall(REFUSED)
        after.append(conn.recv(100))

    with met(room, hears_more) as serving:
        words = ("-s", serving.path, "status")
        with open("/dev/full", "wb") as full:
            ends(room, 9, None, *words, stdout=full)
        read_end, write_end = os.pipe()
        os.close(read_end)
        with os.fdopen(write_end, "wb") as gone:
            ends(room, 9, None, *words, stdout=gone)
        ends(room, 9, None, *words, stdout=None, preexec_fn=lambda: os.close(1))
        ends(room, 1, "Invalid command\n", *words, stdin=None, preexec_fn=lambda: os.close(0))
        wait_for(lambda: len(after) == 4, "the ends of four clients")
        same((after, len(serving.asked)), ([b""] * 4, 4), "what came behind the requests")
    for word in ["--version", "--help"]:
        ends(room, 9, None, word, stdout=None, preexec_fn=lambda: os.close(1))
    ends(room, 9, None, "--str2sec", "1h", stdout=None, preexec_fn=lambda: os.close(1))


def output_would_block(room):
    """where standard output would block the client waits, and prints all"""
    text = b"x" * 300_000
    with served(room, reply(text)) as serving:
        read_end, write_end = os.pipe()
        os.set_blocking(write_end, False)
        fcntl.fcntl(write_end, getattr(fcntl, "F_SETPIPE_SZ", 1031), PAGE)
        process = subprocess.Popen([room.client, "-s", serving.path, "status"], stdin=subprocess.DEVNULL, stdout=write_end)
        os.close(write_end)
        try:
            time.sleep(1)
            with os.fdopen(read_end, "rb") as said_by:
                same(said_by.read(), text + b"\n", "said")
            same(process.wait(PATIENCE), 0, "status")
        finally:
            process.kill()
            process.wait()


def output_blocks_for_long(room):
    """where standard output would block for a minute the client ends with status 9, and not before"""
    no_pause = ["-e", "trace=nanosleep,clock_nanosleep", "-e", "inject=nanosleep,clock_nanosleep:retval=0"]
    may_trace(*no_pause)
    trace = room.path("trace")
    with served(room, reply(b"x" * 300_000)) as serving:
        read_end, write_end = os.pipe()
        os.set_blocking(write_end, False)
        try:
            # Its pauses are not made, so that a minute of them is soon over.
            words = ["strace", "-f", "-o", trace, *no_pause, room.client, "-s", serving.path, "status"]
            ended = subprocess.run(words, stdin=subprocess.DEVNULL, stdout=write_end, timeout=LONG_PATIENCE, check=False)
        finally:
            os.close(read_end)
            os.close(write_end)
    same(ended.returncode, 9, "status")
    with open(trace, encoding="utf-8", errors="replace") as lines:
        pauses = [re.search(r"tv_sec=(\d+), tv_nsec=(\d+)", line) for line in lines]
    asked = sum(int(pause[1]) + int(pause[2]) / 1e9 for pause in pauses if pause)
    want(59 <= asked <= 61, f"pauses of {asked:.2f} s were asked for")


def memory_runs_out(room):
    """a client that finds no memory for a reply ends with status 71, and prints nothing"""
    # Of a program with checks the size of one piece is limited.
    if has_checks(room.client):
        limits = {"ASAN_OPTIONS": "allocator_may_return_null=1:max_allocation_size_mb=4"}
        how = {"env": {**os.environ, **limits}}
    else:
        how = {"preexec_fn": lambda: resource.setrlimit(resource.RLIMIT_AS, (16 << 20, 16 << 20))}
    with served(room, reply(b"x" * (32 << 20))) as serving:
        status, said, _warnings = room.run("-s", serving.path, "status", program=room.client, **how)
        same((status, said), (71, ""), "want of memory")


def helped(room, words):
    """What a call of these words has on standard error where that is a terminal, of which a line ends with CR and LF."""
    controller, terminal = os.openpty()
    try:
        subprocess.run([room.client, *words], stdout=subprocess.DEVNULL, stderr=terminal, timeout=PATIENCE, check=False)
        os.close(terminal)
        return all_of(controller).decode()
    finally:
        os.close(controller)


def all_of(controller):
    """What stands in a terminal that is closed: a read gives a piece of it, and fails once nothing is left."""
    said = b""
    try:
        while piece := os.read(controller, 4096):
            said += piece
    except OSError:
        pass
    return said


def who_sits_at_a_terminal_is_helped(room):
    """where standard error is a terminal, the client has a sentence of help there for each end at which it prints nothing"""
    for words, wanted in [
        (["-s"], "fail2ban-client --help lists the words\r\n"),
        (["-s", room.path("missing"), "ping"], "no server answers at this socket: is one running there, and may you open it?\r\n"),
    ]:
        same(helped(room, words), wanted, words)
    for said, wanted in [
        (b"\0\0\0\0", "what answers at this socket is no fail2ban-server\r\n"),
        (PONG[:3], "the server ended before its reply was whole\r\n"),
    ]:
        with served(room, said) as serving:
            same(helped(room, ["-s", serving.path, "ping"]), wanted, said)


def the_nearest_word_is_named(room):
    """where standard error is a terminal and words that are refused name no command, the nearest word stands there, and elsewhere none"""
    with served(room, REFUSED) as serving:
        for words, wanted in [
            (["pong"], "did you mean ping?\r\n"),
            (["statsu", "sshd"], "did you mean status?\r\n"),
            (["VERSION"], "did you mean version?\r\n"),
            (["get", "sshd", "baniip"], "did you mean banip?\r\n"),
            (["set", "sshd", "unban", "192.0.2.7"], "did you mean unbanip?\r\n"),
            (["get", "sshd", "bantime.incremental"], "did you mean bantime.increment?\r\n"),
            (["-q", "pign"], "did you mean ping?\r\n"),
            (["restart"], "fail2ban-client --help lists the words\r\n"),
            (["x" * 60_000], "fail2ban-client --help lists the words\r\n"),
            (["\u20ac"], "fail2ban-client --help lists the words\r\n"),
            (["set", "sshd"], ""),
            (["set", "sshd", "maxretry", "none"], ""),
            (["status", "nojail"], ""),
        ]:
            options = [word for word in words if word == "-q"]
            same(helped(room, [*options, "-s", serving.path, *words[len(options) :]]), wanted, f"{words}"[:80])
        ends(room, 1, "Invalid command\n", "-s", serving.path, "pong")
    with served(room, PONG) as serving:
        same(helped(room, ["-s", serving.path, "pong"]), "", "accepted")


def listed(room):
    """The commands that --help lists, each as the words that name it, with a jail's name in the place of JAIL."""
    _status, said, _errors = room.run("--help", program=room.client)
    commands = []
    for line in said.split("\nCommands:\n")[1].split("\n\n")[0].splitlines():
        words = re.split(r"\s{2,}", line.strip())[0].split()
        if line.startswith("   "):
            # What the jail has, which is told of the lines above.
            continue
        if words[:2] in (["set", "JAIL"], ["get", "JAIL"]):
            commands += [[words[0], "web", item] for item in words[2].split("|")]
        else:
            commands.append(words[:1])
    return [words for at, words in enumerate(commands) if words not in commands[:at]]


def listed_words_are_commands(room):
    """each command that --help lists is one for the server, and where it is refused no other word is named as near"""
    commands = listed(room)
    names = {words[0] for words in commands}
    same(names, {"ping", "version", "status", "banned", "unban", "reload", "stop", "set", "get"}, "commands that are listed")
    same([len([1 for words in commands if words[0] == name]) for name in ["set", "get"]], [9, 12], "words behind set and get")
    with served(room, REFUSED) as serving:
        for words in commands:
            same(helped(room, ["-s", serving.path, *words]), "", words)
    with room.server() as server:
        at = room.path("run/fail2ban.sock")
        # The stop comes last.
        for words in sorted(commands, key=lambda words: words == ["stop"]):
            _status, said, _errors = room.run("-s", at, *words, program=room.client)
            want(said not in ("", "Invalid command\n"), f"{words}: {said!r}")
        server.wait_ended(0)


CHECKS = [
    server_has_no_room,
    server_is_silent,
    server_is_slow,
    help_is_asked_for,
    versions_are_one,
    words_are_wrong,
    seconds_are_printed,
    reply_comes_in_pieces,
    ping_is_answered,
    request_is_refused,
    a_quiet_client_prints_refusals_alone,
    reply_is_long,
    reply_is_cut,
    reply_is_none,
    nobody_is_there,
    output_is_none,
    output_would_block,
    output_blocks_for_long,
    memory_runs_out,
    who_sits_at_a_terminal_is_helped,
    the_nearest_word_is_named,
    listed_words_are_commands,
]
