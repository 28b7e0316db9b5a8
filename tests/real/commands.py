"""Actions whose commands are run: bans and their ends, tries, time-outs, checks, and what a command may do to the server."""

import contextlib
import os
import resource
import shutil
import signal
import socket
import subprocess
import time

from room import Skipped, failures, same, wait_for, want, write

ADDRESS = "192.0.2.7"

# The most bytes of a command that Linux starts: with the NUL behind them 32 pages of 4 KiB.
LONGEST_COMMAND = 131_071

# A command that never ends, and notes the number of the process that its shell waits for.
ENDLESS = "sleep 1000 & echo $! > {pid}; wait"

# The same, whose process ends by nothing but KILL.
STUBBORN = "(trap '' HUP INT QUIT TERM; exec sleep 1000) & echo $! > {pid}; wait"


def act(room, bantime=60, **items):
    """Gives the jail an action with these items. `{done}` and `{pid}` in them are files of the room."""
    os.makedirs(room.path("conf/action.d"), exist_ok=True)
    paths = {name: room.path(name) for name in ["done", "pid", "flag"]}
    lines = "".join(f"{name} = {text.format(**paths)}\n" for name, text in items.items())
    write(room.path("conf/action.d/note.conf"), "[Definition]\n" + lines)
    room.configure(bantime=bantime, more="action = note\n")


def content(room, name):
    try:
        with open(room.path(name), encoding="utf-8") as file:
            return file.read()
    except FileNotFoundError:
        return ""


def wait_done(room, lines):
    """Waits until commands have written these lines."""
    text = "".join(f"{line}\n" for line in lines)
    wait_for(lambda: len(content(room, "done")) >= len(text), f"{lines}", lambda: content(room, "done"))
    same(content(room, "done"), text, "done")


def ban(room, address=ADDRESS):
    write(room.log, failures(*[address] * 3), "a")


def lives(number):
    """Whether a process runs, and is not merely waited for."""
    try:
        with open(f"/proc/{number}/stat", encoding="utf-8") as file:
            return file.read().rsplit(")", 1)[1].split()[0] not in "ZX"
    except (FileNotFoundError, ProcessLookupError):
        return False


def noted_process(room):
    """The number of the process that a command noted."""
    wait_for(lambda: content(room, "pid").endswith("\n"), "the number of a process")
    return int(content(room, "pid"))


def children(server):
    with open(f"/proc/{server.pid}/task/{server.pid}/children", encoding="utf-8") as file:
        return file.read().split()


def act_often(room, jails, actions, command):
    """Gives the room so many jails with so many actions each, which run a command as they start."""
    os.mkdir(room.path("conf/action.d"))
    write(room.path("conf/action.d/note.conf"), "[Definition]\nactionstart = " + command.format(done=room.path("done")) + "\n")
    action = "action = " + "\n    ".join(f"note[actname=note{number}]" for number in range(actions))
    with open(room.path("conf/jail.conf"), encoding="utf-8") as file:
        web, probe = file.read().split("\n[probe]")
    sections = [web.replace("[web]", f"[web{number}]") + f"\n{action}\n" for number in range(jails)]
    write(room.path("conf/jail.conf"), "".join(sections) + f"\n[probe]{probe}")


def a_ban_is_made_and_taken_back(room):
    """a ban runs the commands of its action in order, and the end of the ban takes it back"""
    act(room, bantime=3, actionstart="echo start >> {done}", actionban="echo ban <ip> >> {done}", actionunban="echo unban <ip> >> {done}")
    with room.server() as server:
        wait_done(room, ["start"])
        ban(room)
        wait_done(room, ["start", f"ban {ADDRESS}"])
        server.wait_said(f"NOTICE [web] Unban {ADDRESS}")
        wait_done(room, ["start", f"ban {ADDRESS}", f"unban {ADDRESS}"])
        wait_for(lambda: not children(server), "the end of all commands")


def a_command_that_fails_is_tried_three_times(room):
    """a command that fails is tried three times, two and four seconds later, and then given up, and its lane goes on"""
    act(room, actionban="echo <ip> $(date +%%s) >> {done}; test <ip> != " + ADDRESS)
    failed = "ERROR [web/note] ban failed: status 1"
    with room.server() as server:
        ban(room)
        server.wait_said("ERROR [web/note] ban given up")
        same([line for line in server.said() if "note" in line], [failed] * 3 + ["ERROR [web/note] ban given up"], "said")
        moments = [int(line.split()[1]) for line in content(room, "done").splitlines()]
        same(len(moments), 3, "tries")
        want(moments[1] - moments[0] >= 2 and moments[2] - moments[1] >= 4, f"tried at {moments}")
        ban(room, "192.0.2.8")
        wait_for(lambda: "192.0.2.8" in content(room, "done"), "the next command of the lane")
        server.turn()
        same(server.count("ERROR [web/note] ban given up"), 1, "commands that were given up")


def a_command_that_is_not_there_fails(room):
    """a command that is not there has status 127, and one that a signal ends 128 and the signal's number"""
    act(room, actionstart="no-such-command 2>/dev/null", actionban="kill -9 $$")
    with room.server() as server:
        server.wait_said("ERROR [web/note] start failed: status 127")
        server.wait_said("ERROR [web/note] start given up")
        ban(room)
        server.wait_said("ERROR [web/note] ban failed: status 137")


def a_command_is_timed_out(room):
    """a command that takes too long is ended with the processes of its shell, and the server goes on meanwhile"""
    act(room, actionban=STUBBORN, timeout="2")
    with room.server() as server:
        ban(room)
        process = noted_process(room)
        want(lives(process), "the command has ended already")
        server.turn()
        server.wait_said("ERROR [web/note] ban failed: timed out")
        took = server.moment("ERROR [web/note] ban failed: timed out") - server.moment(f"NOTICE [web] Ban {ADDRESS}")
        want(took >= 2, f"ended after {took} s")
        wait_for(lambda: not lives(process), "the end of the process")
        wait_for(lambda: not children(server), "the end of the shell")


def a_command_starts_more(room):
    """a command that starts another process as soon as one has ended leaves none behind when it is ended"""
    act(room, actionban="while :; do sleep 1000 & echo $! >> {pid}; wait $!; done", timeout="2")
    with room.server() as server:
        ban(room)
        try:
            server.wait_said("ERROR [web/note] ban given up")
            processes = content(room, "pid").split()
            want(len(processes) >= 3, f"started {processes}")
            wait_for(lambda: not any(map(lives, processes)), "the end of all processes")
        finally:
            # What is left where the check fails.
            for process in filter(lives, content(room, "pid").split()):
                with contextlib.suppress(ProcessLookupError):
                    os.kill(int(process), signal.SIGKILL)


def a_check_fails(room):
    """where the check before a ban fails the action starts anew, with all bans that stand"""
    act(
        room,
        actionstart="touch {flag}; echo start >> {done}",
        actionstop="echo stop >> {done}",
        actioncheck="test -e {flag}",
        actionban="echo ban <ip> >> {done}",
    )
    with room.server() as server:
        ban(room)
        wait_done(room, ["start", f"ban {ADDRESS}"])
        os.remove(room.path("flag"))
        ban(room, "192.0.2.8")
        server.wait_said("INFO [web/note] restart")
        said = [line for line in server.said() if "note" in line]
        same(said, ["WARNING [web/note] check failed: status 1", "INFO [web/note] restart"], "said")
        wait_done(room, ["start", f"ban {ADDRESS}", "stop", "start", f"ban {ADDRESS}", "ban 192.0.2.8"])


def check_ends_so(room, check, cause):
    """Wants a check that ends so to void its job, and the action to start anew."""
    act(room, actionstart="echo start >> {done}", actioncheck=check, actionban="echo ban <ip> >> {done}", timeout="2")
    with room.server() as server:
        ban(room)
        wait_done(room, ["start", "start", f"ban {ADDRESS}"])
        server.turn()
        said = [line for line in server.said() if "note" in line]
        same(said, [f"WARNING [web/note] check failed: {cause}", "INFO [web/note] restart"], "said")
        wait_for(lambda: not children(server), "the end of all commands")


def a_check_is_timed_out(room):
    """a check that takes too long has failed, and no try is counted"""
    check_ends_so(room, ENDLESS, "timed out")


def a_check_is_too_long(room):
    """a check that cannot be started has failed, and no try is counted"""
    check_ends_so(room, "true " + "a" * 140_000, "not started")


def a_command_goes_away(room):
    """what a command leaves behind it goes on, and its lane does not wait for it"""
    act(room, actionban="sleep 1000 & echo $! > {pid}", actionunban="echo unban >> {done}", bantime=2)
    with room.server() as server:
        ban(room)
        process = noted_process(room)
        try:
            wait_done(room, ["unban"])
            want(lives(process), "what it left has ended")
            wait_for(lambda: not children(server), "the end of all commands")
        finally:
            os.kill(process, signal.SIGKILL)


def a_command_knows_little(room):
    """a command has PATH and LANG of the environment, reads nothing, and has no other file of the server"""
    act(room, actionstart="env > {done}; readlink /proc/$$/fd/0 >> {done}; cat >> {done}", actionban="exec ls /proc/self/fd > {pid}")
    environment = {"PATH": "/usr/bin:/bin", "LANG": "C.UTF-8", "SECRET": "yes", "HOME": "/root"}
    # Neither what the server reads nor a client of it is a command's.
    write(room.path("input"), "secret\n")
    with open(room.path("input"), "rb") as read, room.server(env=environment, stdin=read), socket.socket(socket.AF_UNIX) as client:
        client.connect(room.path("run/fail2ban.sock"))
        client.sendall(b"\0\0\0\6\0\4ping")
        same(client.recv(9), b"\0\0\0\5\0pong", "reply")
        ban(room)
        wait_for(lambda: content(room, "pid").endswith("3\n"), "the files of a command", lambda: content(room, "pid"))
        # The last one is the directory that is listed.
        same(content(room, "pid").split(), ["0", "1", "2", "3"], "files")
    lines = content(room, "done").splitlines()
    variables = dict(line.split("=", 1) for line in lines if "=" in line)
    reads = [line for line in lines if "=" not in line]
    for of_the_shell in ["PWD", "OLDPWD", "SHLVL", "_"]:
        variables.pop(of_the_shell, None)
    same((variables, reads), ({"PATH": "/usr/bin:/bin", "LANG": "C.UTF-8"}, ["/dev/null"]), "environment, and input")


def a_command_writes(room):
    """what a command writes comes to the server's standard error"""
    act(room, actionstart="echo out; echo err >&2")
    status, said, errors = room.run("--conf", room.conf, "--turns", "40")
    same((status, errors), (0, "out\nerr\n"), f"status and errors, behind {said!r}")


def a_command_fills_its_output(room):
    """a command that fills a pipe which nobody reads waits, is timed out, and does not keep the server"""
    act(room, actionban="echo $$ > {pid}; yes", timeout="2")
    reader, writer = os.pipe()
    try:
        with room.server(stderr=writer) as server:
            ban(room)
            process = noted_process(room)
            server.turn()
            server.wait_said("ERROR [web/note] ban failed: timed out")
            wait_for(lambda: not lives(process), "the end of the process")
    finally:
        os.close(reader)
        os.close(writer)


def a_server_without_errors(room):
    """where standard error is closed, what commands write is lost, and they run as ever"""
    act(room, actionban="echo out && echo err >&2 && echo <ip> >> {done}")
    with room.server(stderr=None, preexec_fn=lambda: os.close(2)) as server:
        ban(room)
        wait_done(room, [ADDRESS])
        server.turn()
        same([line for line in server.said() if "ERROR" in line], [], "said")
    same(content(room, "web.log").count("\n"), 3, "lines of the log")


def commands_end_with_the_server(room):
    """a server that made its turns ends the commands that still run, with the processes of their shells"""
    act(room, actionstart=ENDLESS)
    status, _said, errors = room.run("--conf", room.conf, "--turns", "8")
    same((status, errors), (0, ""), "end")
    process = noted_process(room)
    wait_for(lambda: not lives(process), "the end of the process")


def commands_end_with_a_fault(room):
    """a server that cannot say its lines any more ends the commands that still run"""
    act(room, actionstart=ENDLESS)
    server = subprocess.Popen(room.words(), stdin=subprocess.DEVNULL, stdout=subprocess.PIPE)
    try:
        want(server.stdout.readline().endswith(b" INFO Server ready\n"), "no first line")
        process = noted_process(room)
        server.stdout.close()
        write(room.log, failures(ADDRESS), "a")
        wait_for(lambda: server.poll() is not None, "the end")
        same(server.returncode, 9, "status")
        wait_for(lambda: not lives(process), "the end of the process")
    finally:
        server.kill()
        server.wait()


def commands_end_with_a_full_journal(room):
    """a server whose journal gets full ends the commands that still run"""
    act(room, actionstart=ENDLESS)
    _status, said, _errors = room.run("--conf", room.conf, "--journal-limit", "1")
    need = int(said.split()[-3])
    with room.server("--journal-limit", str(need + 400)) as server:
        process = noted_process(room)
        want(lives(process), "the command has ended already")
        # So many failures have no room.
        write(room.log, failures(*[f"198.51.100.{number}" for number in range(100)]), "a")
        server.wait_ended(7)
        wait_for(lambda: not lives(process), "the end of the process")


def commands_are_told_apart(room):
    """of ten commands that run at once each is told with its own status, in whatever order they end"""
    # The last ones end first.
    act_often(room, 1, 10, "name=<actname>; number=${{name#note}}; sleep 0.$((9 - number)); exit $number")
    with room.server() as server:
        wanted = [f"ERROR [web0/note{number}] start failed: status {number}" for number in range(1, 10)]
        for line in wanted:
            server.wait_said(line)
        same(sorted({line for line in server.said() if "failed" in line}), wanted, "said")


def sixteen_commands_run(room):
    """of twenty commands that may run at once sixteen do, and the others follow"""
    # Each waits until sixteen have begun.
    act_often(room, 2, 10, "echo + >> {done}; while [ $(grep -c + {done}) -lt 16 ]; do sleep 0.2; done; echo - >> {done}")
    with room.server() as server:
        wait_for(lambda: content(room, "done").count("-") == 20, "the end of all", lambda: content(room, "done"))
        running = most = 0
        for mark in content(room, "done").split():
            running += 1 if mark == "+" else -1
            most = max(most, running)
        same(most, 16, "commands at once")
        wait_for(lambda: not children(server), "the end of all commands")


def many_lanes_start(room):
    """256 actions at once are started, each once"""
    act_often(room, 16, 16, "echo <name> <actname> >> {done}")
    with room.server() as server:
        wait_for(lambda: content(room, "done").count("\n") >= 256, "256 lines", lambda: content(room, "done"))
        server.turn()
        same(len(set(content(room, "done").splitlines())), 256, "actions")
        same(content(room, "done").count("\n"), 256, "commands")


def no_process_is_to_be_had(room):
    """where no process is to be had a command is not started, and is tried again"""
    act(room, actionban="true")
    os.chmod(room.place, 0o777)

    def limit():
        resource.setrlimit(resource.RLIMIT_NPROC, (0, 0))

    with room.server(preexec_fn=limit, **room.as_nobody()) as server:
        ban(room)
        server.wait_said("ERROR [web/note] ban failed: not started", 3)
        server.wait_said("ERROR [web/note] ban given up")


def no_process_is_to_be_had_for_an_end(room):
    """where no process is to be had when a command takes too long, its shell is ended all the same, and what it started goes on"""
    act(room, actionban="sleep 1000 & echo $$ $! > {pid}; wait", timeout="2")
    if not shutil.which("prlimit"):
        raise Skipped("there is no prlimit")
    os.chmod(room.place, 0o777)
    how = room.as_nobody()
    with room.server(**how) as server:
        ban(room)
        wait_for(lambda: content(room, "pid").endswith("\n"), "the numbers of the processes")
        shell, other = map(int, content(room, "pid").split())
        try:
            subprocess.run(["prlimit", f"--pid={server.pid}", "--nproc=0:0"], check=True, **how)
            server.wait_said("ERROR [web/note] ban failed: timed out")
            wait_for(lambda: not lives(shell), "the end of the shell")
            want(lives(other), "what the shell started has ended too: a process was to be had")
            server.wait_said("ERROR [web/note] ban failed: not started")
        finally:
            with contextlib.suppress(ProcessLookupError):
                os.kill(other, signal.SIGKILL)


def a_shell_is_not_there(room):
    """where there is no sh a command is not started, and the server goes on"""
    act(room, actionban="true")
    os.mkdir(room.path("empty"))
    hide = 'mount --bind "$1" "$2" && shift 2 && exec "$@"'
    user = [] if os.geteuid() == 0 else ["--map-root-user"]
    # What the programs of the system stand in is empty, for the server alone.
    starter = ["unshare", *user, "--mount", "sh", "-c", hide, "sh", room.path("empty"), os.path.realpath("/bin")]
    try:
        subprocess.run([*starter, room.program, "--version"], capture_output=True, check=True)
    except (OSError, subprocess.CalledProcessError) as why:
        raise Skipped("nothing may be hidden from a program here") from why
    room.starter = starter
    with room.server() as server:
        ban(room)
        server.wait_said("ERROR [web/note] ban failed: not started", 3)
        server.wait_said("ERROR [web/note] ban given up")
        server.turn()


def a_command_signals_its_group(room):
    """a command that signals its own process group signals the server"""
    act(room, actionban="kill -s TERM 0")
    with room.server(start_new_session=True) as server:
        ban(room)
        server.wait_ended(-signal.SIGTERM)


def a_command_is_too_long(room):
    """a command of 64 KiB is run, and so is one of the most bytes that the system takes, and one of a byte more is not started"""
    most = LONGEST_COMMAND - len(room.path("done"))
    act(
        room,
        actionstart="echo " + "a" * 65_536 + " >> {done}",
        actionban="echo >> {done} " + "b" * (most - 9),
        actionunban="echo >> {done} " + "c" * (most - 8),
    )
    with room.server() as server:
        ban(room)
        wait_done(room, ["a" * 65_536, "b" * (most - 9)])
        _status, said, _errors = room.run("-s", room.path("run/fail2ban.sock"), "unban", ADDRESS, program=room.client)
        same(said, "1\n", "unban")
        server.wait_said("ERROR [web/note] unban failed: not started")
        server.turn()
        want("c" not in content(room, "done"), "a command that is too long was run")


def shells_and_appends(room, count):
    """How many seconds so many shells take here now, one behind the other, each with what is written to a file and synced for its end."""
    begin = time.monotonic()
    with open(room.path("synced"), "ab", buffering=0) as file:
        for _ in range(count):
            subprocess.run(["sh", "-c", "true"], check=True)
            append(file)
    return time.monotonic() - begin


def append(file):
    """Writes twice to a file, with a sync behind each."""
    for _ in range(2):
        file.write(b"x" * 100)
        os.fdatasync(file.fileno())


def a_lane_does_not_wait(room):
    """a hundred bans of one jail are made well before a hundred pauses are over, one behind the other"""
    act(room, actionban="echo <ip> >> {done}")
    addresses = [f"198.51.100.{number}" for number in range(100)]
    with room.server() as server:
        server.turn()
        alone = shells_and_appends(room, 50)
        begin = time.monotonic()
        write(room.log, "".join(failures(*[address] * 3) for address in addresses), "a")
        wait_done(room, addresses)
        took = time.monotonic() - begin
        alone += shells_and_appends(room, 50)
        # A hundred pauses are 25 s. On a busy machine shells, and a disk, are slow by themselves.
        want(took < 5 + 6 * alone, f"took {took:.1f} s, and a hundred shells with their syncs {alone:.1f} s")
        server.turn()
        return f"{took:.1f} s, and a hundred shells with their syncs {alone:.1f} s"


def reads(server):
    """How often a server has read from a file so far."""
    try:
        with open(f"/proc/{server.pid}/io", encoding="utf-8") as file:
            return int(dict(line.split(": ") for line in file)["syscr"])
    except (OSError, KeyError) as why:
        raise Skipped("the system does not tell what a process reads") from why


def pauses_are_made_behind_commands(room):
    """a server that has found failures and run commands pauses as any other"""
    act(room, actionstart="echo start >> {done}", actionban="echo ban >> {done}", timeout="1")
    write(room.path("conf/action.d/late.conf"), f"[Definition]\ntimeout = 1\nactionstart = {ENDLESS.format(pid=room.path('pid'))}\n")
    room.configure(more="action = note\n    late\n")
    with room.server() as server:
        ban(room)
        wait_done(room, ["start", "ban"])
        server.wait_said("ERROR [web/late] start given up")
        wait_for(lambda: not children(server), "the end of all commands")
        server.turn()
        before = reads(server)
        time.sleep(3)
        made = reads(server) - before
    # Some four a turn, of which there are twelve at most.
    want(made <= 150, f"{made} reads in three seconds")


def a_log_is_watched(room):
    """a failure that is written while the server pauses is found before the pause is over"""
    took, own = [], []
    with room.server() as server:
        server.turn()
        for number in range(20):
            time.sleep(0.05)
            begin = time.monotonic()
            write(room.log, failures(f"192.0.2.{number}"), "a")
            while not server.count(f"INFO [web] Found 192.0.2.{number}"):
                want(time.monotonic() < begin + 60, "not found")
                time.sleep(0.001)
            took.append(time.monotonic() - begin)
            own.append(step_and_append(room))
    want(sorted(took)[10] < 0.075 + sorted(own)[10], f"took {sorted(took)}, and a step and an append by themselves {sorted(own)}")


def step_and_append(room):
    """How many seconds it takes here now to wait for 25 milliseconds, and to write twice to a file and sync it."""
    begin = time.monotonic()
    time.sleep(0.025)
    with open(room.path("synced"), "ab", buffering=0) as file:
        append(file)
    return time.monotonic() - begin


CHECKS = [
    a_ban_is_made_and_taken_back,
    a_command_that_fails_is_tried_three_times,
    a_command_that_is_not_there_fails,
    a_command_is_timed_out,
    a_command_starts_more,
    a_check_fails,
    a_check_is_timed_out,
    a_check_is_too_long,
    a_command_goes_away,
    a_command_knows_little,
    a_command_writes,
    a_command_fills_its_output,
    a_server_without_errors,
    commands_end_with_the_server,
    commands_end_with_a_fault,
    commands_end_with_a_full_journal,
    commands_are_told_apart,
    sixteen_commands_run,
    many_lanes_start,
    no_process_is_to_be_had,
    no_process_is_to_be_had_for_an_end,
    a_shell_is_not_there,
    a_command_signals_its_group,
    a_command_is_too_long,
    a_lane_does_not_wait,
    pauses_are_made_behind_commands,
    a_log_is_watched,
]
