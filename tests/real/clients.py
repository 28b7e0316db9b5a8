"""Clients of a server at its real socket: what they are replied and bring about, when they are let go, and the stop that one asks for."""

import contextlib
import os
import select
import socket
import stat
import time

from client import PING
from commands import ADDRESS, act, content, wait_done
from room import PATIENCE, as_nobody, failures, same, wait_for, want, write

BAN = f"NOTICE [web] Ban {ADDRESS}"
UNBAN = f"NOTICE [web] Unban {ADDRESS}"
OTHER = "192.0.2.8"

# So many clients are served at once, and for so many seconds one may be silent.
AT_ONCE = 16
SILENCE = 30

# The commands of an action that note what they are called for.
NOTES = {
    "actionstart": "echo start >> {done}",
    "actionstop": "echo stop >> {done}",
    "actionban": "echo ban <ip> >> {done}",
    "actionunban": "echo unban <ip> >> {done}",
}


def socket_of(room):
    return room.path("run/fail2ban.sock")


def ask(room, status, reply, *words):
    """Runs the client with these words, and wants this status and this reply."""
    same(room.run("-s", socket_of(room), *words, program=room.client), (status, reply + "\n", ""), words)


def connect(room):
    conn = socket.socket(socket.AF_UNIX)
    conn.settimeout(PATIENCE)
    conn.connect(socket_of(room))
    return conn


@contextlib.contextmanager
def connected(room, count=1):
    """So many clients, which are closed behind it."""
    conns = []
    try:
        for _ in range(count):
            conns.append(connect(room))
        yield conns
    finally:
        for conn in conns:
            conn.close()


def request(*words):
    body = b"".join(len(word.encode()).to_bytes(2, "big") + word.encode() for word in words)
    return len(body).to_bytes(4, "big") + body


def hear_bytes(conn, count):
    data = b""
    while len(data) < count:
        piece = conn.recv(count - len(data))
        want(piece, f"the connection ended behind {data!r}")
        data += piece
    return data


def hear(conn):
    """One reply: whether the request was accepted, and the text."""
    body = hear_bytes(conn, int.from_bytes(hear_bytes(conn, 4), "big"))
    return body[0] == 0, body[1:].decode()


def wait_closed(conn):
    """Waits until the server closes the connection, over which nothing more comes."""
    try:
        same(conn.recv(1), b"", "what came")
    except ConnectionResetError:
        # It had not read all that was sent.
        pass


def a_ping_and_a_status_are_replied(room):
    """the server replies to ping, and says which jails there are and what one of them counts"""
    with room.server() as server:
        ask(room, 0, "Server replied: pong", "ping")
        ask(room, 0, "Status\n|- Number of jail:\t2\n`- Jail list:\tweb, probe", "status")
        write(room.log, failures(ADDRESS, OTHER, ADDRESS), "a")
        server.wait_said(f"INFO [web] Found {OTHER}")
        server.turn()
        ask(
            room,
            0,
            "Status for the jail: web\n|- Filter\n|  |- Currently failed:\t2\n|  |- Total failed:\t3\n"
            f"|  `- File list:\t{room.log}\n`- Actions\n   |- Currently banned:\t0\n   |- Total banned:\t0\n   `- Banned IP list:\t",
            "status",
            "web",
        )


def what_stands_is_told(room):
    """the server says its version, what each jail counts, which jails hold an address, since when and until when it is banned, and what a jail has"""
    with room.server():
        status, said, errors = room.run("--version")
        same((status, errors), (0, ""), "--version")
        ask(room, 0, said.split()[1], "version")
        _, web, _ = room.run("-s", socket_of(room), "status", "web", program=room.client)
        _, probe, _ = room.run("-s", socket_of(room), "status", "probe", program=room.client)
        ask(room, 0, f"{web}\n{probe}".removesuffix("\n"), "status", "--all")
        begin = int(time.time())
        ask(room, 0, "1", "set", "web", "banip", ADDRESS)
        ask(room, 0, "-1", "set", "web", "bantime", "-1")
        ask(room, 0, "1", "set", "web", "banip", OTHER)
        ask(room, 0, "1", "set", "probe", "banip", OTHER)
        end = int(time.time())
        ask(room, 0, f"{ADDRESS}: web\n{OTHER}: web probe\n::1:", "banned", ADDRESS, OTHER, "::1")
        ask(room, 1, "Wrong number of words", "banned", "web")
        _, said, _ = room.run("-s", socket_of(room), "get", "web", "banip", "--with-time", program=room.client)
        first, second = (line.split(" ") for line in said.splitlines())
        same((first[0], second[0], second[3:]), (ADDRESS, OTHER, ["never"]), "bans with their times")
        for seconds, shown in [first[1:3], first[3:5], second[1:3]]:
            same(shown, time.strftime("%Y-%m-%dT%H:%M:%S+00:00", time.gmtime(int(seconds))), "a moment of UTC")
        want(begin <= int(first[1]) <= int(second[1]) <= end, "bans began in their order, while they were asked for")
        for item, reply in [("actions", ""), ("ignoreregex", ""), ("datepattern", "Epoch"), ("maxmatches", "3"), ("bantime.increment", "false")]:
            ask(room, 0, reply, "get", "web", item)


def an_address_is_banned_by_a_command(room):
    """an address that a client has banned is banned by the commands of the action, and one that it lets in is let in by them"""
    act(room, bantime=600, **NOTES)
    with room.server() as server:
        wait_done(room, ["start"])
        ask(room, 0, "1", "set", "web", "banip", ADDRESS, ADDRESS)
        server.wait_said(BAN)
        wait_done(room, ["start", f"ban {ADDRESS}"])
        ask(room, 0, "0", "set", "web", "banip", ADDRESS)
        ask(room, 0, ADDRESS, "get", "web", "banip")
        ask(room, 0, f"web: {ADDRESS}\nprobe: ", "banned")
        ask(room, 0, "1", "set", "web", "unbanip", ADDRESS)
        server.wait_said(UNBAN)
        wait_done(room, ["start", f"ban {ADDRESS}", f"unban {ADDRESS}"])
        ask(room, 0, "0", "set", "web", "unbanip", ADDRESS)
        ask(room, 0, "2", "set", "web", "banip", ADDRESS, OTHER)
        ask(room, 0, "1", "unban", OTHER)
        ask(room, 0, "1", "unban", "--all")
        ask(room, 0, "", "get", "web", "banip")
        same(server.count(BAN), 2, "bans")


def values_are_set(room):
    """what a client sets of a jail is what the jail goes by from then on"""
    with room.server() as server:
        for words, reply in [
            (("findtime", "1h 30m"), "5400"),
            (("bantime", "-1"), "-1"),
            (("maxretry", "1"), "1"),
        ]:
            ask(room, 0, reply, "set", "web", *words)
            ask(room, 0, reply, "get", "web", words[0])
        ask(room, 0, "192.0.2.8", "set", "web", "addignoreip", OTHER)
        ask(room, 0, "192.0.2.8 198.51.100.0/24", "set", "web", "addignoreip", "198.51.100.7/24")
        ask(room, 0, "192.0.2.8 198.51.100.0/24", "get", "web", "ignoreip")
        ask(room, 0, "192.0.2.8", "set", "web", "delignoreip", "198.51.100.0/24")
        ask(room, 0, room.log, "get", "web", "logpath")
        ask(room, 0, "^ fail from <ADDR>$", "get", "web", "failregex")
        # Of one failure each, who is not ignored is banned.
        write(room.log, failures(OTHER, ADDRESS), "a")
        server.wait_said(BAN)
        same(server.said()[1:], [f"INFO [web] Found {ADDRESS}", BAN], "said")
        ask(room, 0, "1", "set", "web", "attempt", "192.0.2.9")
        server.wait_said("NOTICE [web] Ban 192.0.2.9")
        ask(room, 0, "0", "set", "web", "attempt", "192.0.2.9")


def a_jail_is_idle(room):
    """the logs of a jail that a client has made idle are let be, until it is not idle any more"""
    with room.server() as server:
        ask(room, 0, "on", "set", "web", "idle", "on")
        write(room.log, failures(ADDRESS), "a")
        server.turn()
        same(server.count(f"INFO [web] Found {ADDRESS}"), 0, "failures of an idle jail")
        ask(room, 0, "off", "set", "web", "idle", "off")
        server.wait_said(f"INFO [web] Found {ADDRESS}")


def words_are_wrong(room):
    """words that are no request, and requests that are refused, are told why, and change nothing"""
    with room.server() as server:
        for words, refusal in [
            (["sett"], "Invalid command"),
            (["set", "web"], "Wrong number of words"),
            (["set", "we/b", "idle", "on"], "Bad jail name"),
            (["set", "none", "banip", "192.0.2"], "Bad address: word 4"),
            (["set", "web", "findtime", "5q"], "Bad number"),
            (["status", "none"], "Sorry but the jail 'none' does not exist"),
            (["reload", "web"], "Wrong number of words"),
            ([""], "Invalid command"),
        ]:
            ask(room, 1, refusal, *words)
        ask(room, 0, "Server replied: pong", "ping")
        same(server.said(), ["INFO Server ready"], "said")


def requests_come_in_any_pieces(room):
    """requests that come all at once, or byte by byte, are replied to one after the other, in order"""
    words = [("ping",), ("get", "web", "maxretry"), ("pong",), ("get", "web", "findtime")]
    replies = [(True, "pong"), (True, "3"), (False, "Invalid command"), (True, "600")]
    whole = b"".join(request(*each) for each in words)
    with room.server(), connected(room, 2) as (first, second):
        first.sendall(whole * 3)
        for byte in whole:
            second.sendall(bytes([byte]))
            time.sleep(0.002)
        same([hear(first) for _ in range(12)], replies * 3, "replies")
        same([hear(second) for _ in range(4)], replies, "replies to single bytes")


def a_frame_is_garbage(room):
    """a frame that is no request is told so, and the connection ends, with whatever stands behind the frame unread"""
    with room.server():
        for frame, refusal in [
            (b"\xff\xff\xff\xff", "Frame too long"),
            (b"\0\1\0\1", "Frame too long"),
            (b"GET / HTTP/1.1\r\n\r\n", "Frame too long"),
            (b"\0\0\0\0", "Empty frame"),
            (b"\0\0\0\1\t", "Bad word"),
            (b"\0\0\0\4\0\2\xff\xff", "Bad word"),
        ]:
            with connected(room) as (conn,):
                conn.sendall(frame + PING)
                same(hear(conn), (False, refusal), frame)
                wait_closed(conn)
        ask(room, 0, "Server replied: pong", "ping")


def seventeen_clients_come(room):
    """sixteen clients are served at once, and the next one as soon as one of them leaves"""
    with room.server(), connected(room, AT_ONCE + 1) as conns:
        for conn in conns:
            conn.sendall(PING)
        for conn in conns[:AT_ONCE]:
            same(hear(conn), (True, "pong"), "reply")
        conns[AT_ONCE].settimeout(2)
        try:
            same(conns[AT_ONCE].recv(1), "nothing", "what the seventeenth heard")
        except TimeoutError:
            pass
        conns[AT_ONCE].settimeout(PATIENCE)
        conns[3].close()
        same(hear(conns[AT_ONCE]), (True, "pong"), "reply to the seventeenth")


def a_client_is_silent(room):
    """a client that is silent for half a minute is let go, in the middle of a request too, and a slow one is not"""
    with room.server(), connected(room, 4) as (silent, two, half, slow):
        begin = time.monotonic()
        two.sendall(PING[:2])
        half.sendall(PING[:7])
        for byte in PING[:-1]:
            slow.sendall(bytes([byte]))
            time.sleep(SILENCE / 6)
        for conn in [silent, two, half]:
            wait_closed(conn)
        # The server's clock has whole seconds.
        want(time.monotonic() - begin >= SILENCE - 1, "half a minute is not over")
        slow.sendall(PING[-1:])
        same(hear(slow), (True, "pong"), "reply")


def a_reply_is_never_read(room):
    """a client that asks and never reads its replies is let go half a minute after it took the last byte, and keeps nobody waiting"""
    with room.server() as server, connected(room, 2) as (deaf, other):
        other.sendall(PING)
        same(hear(other), (True, "pong"), "reply")
        files, begin = server.files(), time.monotonic()
        deaf.settimeout(0.5)
        with contextlib.suppress(TimeoutError):
            while True:
                deaf.sendall(request("status", "--all") * 100)
                begin = time.monotonic()
        ends = select.poll()
        ends.register(deaf, select.POLLHUP)
        while not ends.poll(SILENCE / 6 * 1_000):
            want(time.monotonic() < begin + SILENCE + PATIENCE, "the client was not let go")
            other.sendall(PING)
            same(hear(other), (True, "pong"), "reply")
        want(time.monotonic() - begin >= SILENCE - 2, "half a minute is not over")
        wait_for(lambda: server.files() == files - 1, f"{files - 1} open files", server.files)


def clients_come_and_go(room):
    """clients that leave, whatever they have sent, leave nothing behind in the server"""
    with room.server() as server:
        ask(room, 0, "Server replied: pong", "ping")
        server.turn()
        before = server.files()
        # A thousand, one after the other: each leaves in the midst of a request, or with a reply unread, which is a reset to the server.
        for number in range(1_000):
            with connected(room) as (conn,):
                conn.sendall(PING if number % 2 else request("status", "web")[: number % 16])
        with connected(room) as (conn,):
            conn.sendall(PING)
            same(hear(conn), (True, "pong"), "reply")
        wait_for(lambda: server.files() == before, f"{before} open files", server.files)


def a_second_server_is_refused(room):
    """a server whose socket another one has is refused, and the other one stays reachable"""
    with room.server():
        room.ends(5, ["ERROR disk"], "--conf", room.conf)
        ask(room, 0, "Server replied: pong", "ping")


def the_socket_is_taken(room):
    """a server is refused where something else answers at its socket, or is no socket, and nothing there is changed: status 8"""
    os.makedirs(room.path("run"), mode=0o700)
    write(socket_of(room), "no socket")
    room.ends(8, ["ERROR socket"], "--conf", room.conf)
    same(content(room, "run/fail2ban.sock"), "no socket", "the file")
    os.remove(socket_of(room))
    with socket.socket(socket.AF_UNIX) as listener:
        listener.bind(socket_of(room))
        listener.listen()
        place = os.stat(socket_of(room)).st_ino
        room.ends(8, ["ERROR socket"], "--conf", room.conf)
        same(os.stat(socket_of(room)).st_ino, place, "the number of the file")


def the_socket_is_the_owners_alone(room):
    """the socket is its owner's alone, and goes with a server that ends by itself"""
    with room.server("--turns", "1000000"):
        mode = os.stat(socket_of(room)).st_mode
        want(stat.S_ISSOCK(mode), "no socket")
        same(stat.S_IMODE(mode), 0o600, "mode")
        os.chmod(room.path("run"), 0o755)
        how = as_nobody()
        if how:
            status, said, _ = room.run("-s", socket_of(room), "ping", program=room.client, **how)
            same((status, said), (8, ""), "another user's client")
        ask(room, 0, "Server replied: pong", "ping")
    room.ends(0, ["INFO Server ready"], "--conf", room.conf, "--turns", "2")
    want(not os.path.lexists(socket_of(room)), "the socket is still there")


def a_stop_takes_all_back(room):
    """a stop takes back what the commands did, stops the actions, and ends the server with status 0; the next one bans again"""
    act(room, bantime=600, **NOTES)
    done = ["start", f"ban {ADDRESS}", f"unban {ADDRESS}", "stop"]
    with room.server() as server:
        ask(room, 0, "1", "set", "web", "banip", ADDRESS)
        wait_done(room, done[:2])
        ask(room, 0, "Shutdown begun", "stop")
        server.wait_ended(0)
        same(server.said()[1:], [BAN, "INFO Stopping"], "said")
        wait_done(room, done)
        want(not os.path.lexists(socket_of(room)), "the socket is still there")
    with room.server():
        wait_done(room, [*done, "start", f"ban {ADDRESS}"])
        ask(room, 0, ADDRESS, "get", "web", "banip")


def a_stop_waits_for_its_commands(room):
    """while the commands of a stop run clients are replied to, and nothing can be changed any more"""
    act(room, bantime=600, **{**NOTES, "actionstop": "while [ ! -e {flag} ]; do sleep 0.1; done; echo stop >> {done}"})
    with room.server() as server:
        wait_done(room, ["start"])
        ask(room, 0, "Shutdown begun", "stop")
        server.wait_said("INFO Stopping")
        for words in [("set", "web", "banip", ADDRESS), ("unban", "--all"), ("set", "web", "idle", "on"), ("reload",)]:
            ask(room, 1, "Server is stopping", *words)
        ask(room, 0, "Server replied: pong", "ping")
        ask(room, 0, "", "get", "web", "banip")
        ask(room, 0, "Shutdown begun", "stop")
        write(room.path("flag"), "")
        server.wait_ended(0)
        same(server.said(), ["INFO Server ready", "INFO Stopping"], "said")
        wait_done(room, ["start", "stop"])


def a_server_is_killed_with_a_client(room):
    """a server that is killed while clients are connected leaves its socket, and the next one replaces it and knows who is banned"""
    act(room, bantime=600, **NOTES)
    with room.server() as server, connected(room, 2) as (first, second):
        first.sendall(request("set", "web", "banip", ADDRESS))
        same(hear(first), (True, "1"), "reply")
        second.sendall(PING[:5])
        wait_done(room, ["start", f"ban {ADDRESS}"])
        server.process.kill()
        server.process.wait()
        for conn in [first, second]:
            wait_closed(conn)
    want(os.path.lexists(socket_of(room)), "the socket is gone")
    with room.server():
        ask(room, 0, ADDRESS, "get", "web", "banip")


CHECKS = [
    a_client_is_silent,
    a_reply_is_never_read,
    a_ping_and_a_status_are_replied,
    what_stands_is_told,
    an_address_is_banned_by_a_command,
    values_are_set,
    a_jail_is_idle,
    words_are_wrong,
    requests_come_in_any_pieces,
    a_frame_is_garbage,
    seventeen_clients_come,
    clients_come_and_go,
    a_second_server_is_refused,
    the_socket_is_taken,
    the_socket_is_the_owners_alone,
    a_stop_takes_all_back,
    a_stop_waits_for_its_commands,
    a_server_is_killed_with_a_client,
]
