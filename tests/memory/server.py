"""The server: a short worked run in which memory runs out, and behind it one without a fault over the same journal."""

import contextlib
import os
import re
import shutil
import tempfile
import threading
import time

from folder import LOGGED, Folder, log_in
from refused import NO_MEMORY, NONE, Run, noted, want_status

from askers import Connection, Unheard, Unreached, ask_once, request
from checks import Failed, same, want

# The call that listens has no answer for want of memory: there it is told as a fault of the socket.
NO_SOCKET = 8

# Whom clients ban and let in, and of whom they say a failure.
ASKED, TRIED = "192.0.2.9", "192.0.2.8"

# What changes before the second worked run asks for a reload: the action is another one, so the old one stops and the new one starts.
CHANGED = """\
[web]
maxretry = 4
action = note[actname=other]
"""

# A command that finds no memory is not started, and tried again.
NOT_STARTED = re.compile(
    r"ERROR \[web/(note|other)\] (start|stop|ban|unban) (failed: not started|given up)"
    r"|WARNING \[web/(note|other)\] check failed: not started|INFO \[web/(note|other)\] restart"
)

# A moment in a reply, in seconds and as a clock shows it: it is another one in each run.
MOMENT = re.compile(r"\b\d{10} \d{4}-\d\d-\d\dT\d\d:\d\d:\d\d\+00:00")

# Lines of bans and of their ends, of which each is a promise.
BANS = re.compile(r"NOTICE \[web\] (Ban|Unban) (\S+)")


class Worked:
    """A worked run: what it begins with, what a client asks for meanwhile, and how it ends."""

    # How many of its last requests for memory are refused one by one: those behind the patterns.
    last = 1_450

    def __init__(self, name, program, library, place, asks, words, kept=None, changed=""):
        self.name, self.program, self.library, self.place = name, program, library, place
        self.asks, self.words, self.kept, self.changed = asks, words, kept, changed
        with self.folder() as folder:
            self.usual = self.first(folder, NONE)
            same(self.usual.run.status, 0, "status of a run without a refusal")
            same([words for words, _ in self.usual.replies], asks, "what is replied in a run without a refusal")
        self.requests = self.usual.run.requests
        want(self.requests, f"the library counts no request of {program}")

    @contextlib.contextmanager
    def folder(self):
        with tempfile.TemporaryDirectory(dir=self.place) as place:
            folder = Folder(place, self.program, log_in(self.place), self.kept)
            try:
                yield folder
            except Failed as why:
                raise Failed(f"{why}; it said {folder.lines('said')}, and commands noted {folder.content('done')!r}") from why

    def keep(self, into):
        """Makes a run without a refusal, and keeps its journal, as what other worked runs begin with."""
        with self.folder() as folder:
            same(self.first(folder, NONE).run.status, 0, "status")
            shutil.copytree(folder.path("run"), into)

    def run(self, refusal):
        """Makes a run, and behind one that ran out of memory another one without a refusal, and gives what came of the first."""
        with self.folder() as folder:
            first = self.first(folder, refusal)
            if first.run.came and (first.run.status, first.lines) == (NO_SOCKET, ["ERROR socket"]):
                self.second(folder, first)
                folder.noted()
                return first.run
            want_status(first.run, self.usual.run.status)
            same(first.run.errors, b"", "standard error")
            is_out = first.run.status == NO_MEMORY
            said = [line for line in first.lines if not NOT_STARTED.fullmatch(line)]
            same(said, self.usual.lines[: len(said)] if is_out else self.usual.lines, "said")
            # A run that has to start the action anew may come to its last turn before its last client.
            is_other = is_out or first.lines != self.usual.lines
            same(first.replies, self.usual.replies[: len(first.replies)] if is_other else self.usual.replies, "requests and their replies")
            if is_other:
                self.second(folder, first)
            folder.noted()
            return first.run

    def again(self):
        return " ".join([self.program, "--conf", "CONF", *self.words])

    # ---- the first run

    def first(self, folder, refusal):
        note, replies = folder.path("note"), []
        with folder.server("said", *self.words, env=self.library.environment(note, refusal)) as process:
            asker = threading.Thread(target=self.ask_all, args=[folder, process, replies])
            asker.start()
            try:
                status = folder.ended(process)
            finally:
                process.kill()
                asker.join()
        run = Run(status, folder.content("said").encode(), folder.errors("said").encode(), *noted(note))
        return First(run, folder.lines("said"), replies)

    def ask_all(self, folder, process, replies):
        """Asks for all over one connection, as soon as the server listens, and hears what is replied for as long as somebody replies."""
        conn = None
        while conn is None and process.poll() is None:
            try:
                conn = Connection(folder.socket)
            except Unreached:
                time.sleep(0.03)
        if conn is None:
            return
        with contextlib.suppress(Unheard):
            if self.changed:
                folder.put("conf/jail.local", self.changed)
            conn.send(b"".join(request(*words) for words in self.asks))
            for words in self.asks:
                status, text = conn.hear()
                replies.append((words, (status, MOMENT.sub("MOMENT", text))))
        conn.close()

    # ---- the second run

    def second(self, folder, first):
        """A run without a refusal over what the first one left: it ends well, and nothing that was said is lost."""
        promised = first.banned()
        with folder.server("said-next") as process:
            try:
                folder.wait(process, "said-next", lambda: "INFO Server ready" in folder.lines("said-next"), "its first line")
                held = ask_once(folder.socket, "get", "web", "banip")[1].split()
                self.want_held(folder, promised, held)
                wanted = [f"ban {address}" for address in held if not self.was_kept(address)]
                folder.wait(process, "said-next", lambda: set(wanted) <= set(folder.noted()), f"of the commands {wanted} each")
                same(ask_once(folder.socket, "stop"), (0, "Shutdown begun"), "the reply to a stop")
                same(folder.ended(process), 0, "status of the next run")
            except Unheard as why:
                said = f"{folder.lines('said-next')} {folder.errors('said-next')[-1500:]!r}"
                raise Failed(f"the next run does not reply, and said {said}") from why
        same(folder.errors("said-next"), "", "standard error of the next run")
        self.want_commands(folder, promised)

    def want_held(self, folder, promised, held):
        """Wants that these addresses are banned as the first run said, but for whom the next one lets in."""
        bans = filter(None, map(BANS.fullmatch, folder.lines("said-next")))
        lifted = [ban[2] for ban in bans if ban[1] == "Unban"]
        for address, is_banned in promised.items():
            if is_banned and not self.is_let_in(address):
                want(address in [*held, *lifted], f"the ban of {address} is lost: banned are {held}")
            if not is_banned:
                want(address not in held, f"{address} was let in, and is banned again")

    def is_let_in(self, address):
        """Whether the client asks to let the address in: that may be done, also where it heard no reply."""
        return any(words[2:4] == ("unbanip", address) for words in self.asks)

    def was_kept(self, address):
        """Whether the address was banned before both runs, and so by no command of theirs."""
        return self.kept and address == LOGGED

    def want_commands(self, folder, promised):
        """Wants that a command of one of the runs has banned each address that was said to be banned, and that each is let in behind the stop."""
        banned, kept_out, is_up = set(), set(), False
        for line in folder.noted():
            kind, _, address = line.partition(" ")
            if kind == "ban":
                banned.add(address)
                kept_out.add(address)
            elif kind == "unban":
                kept_out.discard(address)
            else:
                # A start and a stop both have nobody kept out.
                kept_out.clear()
                is_up = kind == "start"
        for address, is_banned in promised.items():
            if is_banned and not self.is_let_in(address) and not self.was_kept(address):
                want(address in banned, f"no command bans {address}")
        want(not is_up and not kept_out, f"behind a stop the action is up, or keeps out {kept_out}")


class First:
    """What came of the first run."""

    def __init__(self, run, lines, replies):
        self.run, self.lines, self.replies = run, lines, replies

    def banned(self):
        """Who was said to be banned (true) and to be let in (false) last: by lines, and by replies, which come behind them."""
        said = {}
        for line in self.lines:
            if ban := BANS.fullmatch(line):
                said[ban[2]] = ban[1] == "Ban"
        for words, reply in self.replies:
            if words[2:3] in (("banip",), ("unbanip",)) and reply == (0, "1"):
                said.setdefault(words[3], words[2] == "banip")
        return said


def worked_runs(program, library, place):
    """The worked runs by their names: the first begins with nothing, and the second with what one kept that found and banned."""
    finds, goes_on = "the server finds, bans and is asked", "the server goes on, reads again and stops"
    asks = [
        ("status", "--all"),
        ("set", "web", "banip", ASKED),
        ("set", "web", "attempt", TRIED),
        ("get", "web", "banip", "--with-time"),
        ("set", "web", "unbanip", ASKED),
        ("banned",),
    ]
    turns = ["--turns", "24"]
    yield finds, lambda: Worked(finds, program, library, place, asks, turns)

    def over_what_is_kept():
        kept = os.path.join(place, "kept")
        if not os.path.exists(kept):
            Worked(finds, program, library, place, [], turns).keep(kept)
        asks = [("reload",), ("set", "web", "banip", ASKED), ("status", "web"), ("stop",)]
        return Worked(goes_on, program, library, place, asks, [], kept, CHANGED)

    yield goes_on, over_what_is_kept
