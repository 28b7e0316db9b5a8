"""Has clients ask the server, and prints how long its replies took, how many bans it took a second, and how long a reload takes.

    clients.py SERVER CLIENT [FOLDER]

A configuration, its log and the journal lie in a folder that is made in FOLDER, and is removed. Each request that changes something costs two
syncs of its disk.
"""

import os
import shutil
import socket
import statistics
import subprocess
import sys
import tempfile
import threading
import time

# As many as the environment says, to see the script at work.
PINGS = int(os.environ.get("PINGS", 2_000))
BANS = int(os.environ.get("BANS", 2_000))

# So many clients are served at once, so many addresses stand in one long request, and so many are banned where a jail is asked for its status.
AT_ONCE = 16
MANY = 1_000
BANNED = 10_000

# So many jails have a configuration that is read again, each with one of the filters that ship.
JAILS = 20
FILTERS = "conf/filter.d"

CONFIGURATION = """\
[web]
enabled = true
logpath = {place}/web.log
datepattern = Epoch
failregex = ^ fail from <IP4>$
bantime = 60000
"""


def request(*words):
    body = b"".join(len(word).to_bytes(2, "big") + word.encode() for word in words)
    return len(body).to_bytes(4, "big") + body


def address(number):
    return f"10.{number >> 16 & 255}.{number >> 8 & 255}.{number & 255}"


def received(conn, count):
    data = b""
    while len(data) < count:
        piece = conn.recv(count - len(data))
        if not piece:
            sys.exit("the server closed a connection")
        data += piece
    return data


def hear(conn):
    """The text of one reply to a request that was accepted."""
    body = received(conn, int.from_bytes(received(conn, 4), "big"))
    if body[0] != 0:
        sys.exit(f"the server refused: {body[1:].decode()}")
    return body[1:].decode()


class Bench:
    """A server that runs over a folder."""

    def __init__(self, server, place, configuration):
        self.path = f"{place}/run/fail2ban.sock"
        os.makedirs(f"{place}/conf")
        shutil.copytree(FILTERS, f"{place}/conf/filter.d")
        with open(f"{place}/conf/jail.conf", "w") as file:
            file.write(configuration)
        with open(f"{place}/conf/fail2ban.conf", "w") as file:
            file.write(f"[Definition]\nsocket = {self.path}\n")
        self.process = subprocess.Popen([server, "--conf", f"{place}/conf"], stdin=subprocess.DEVNULL, stdout=subprocess.PIPE)
        self.process.stdout.readline()
        # Each ban is said, and a pipe that nobody reads would hold the server up.
        threading.Thread(target=self.process.stdout.read, daemon=True).start()

    def connect(self):
        conn = socket.socket(socket.AF_UNIX)
        conn.connect(self.path)
        return conn


def milliseconds(times, made):
    """How long each of so many took, the first one aside."""
    made()
    took = []
    for _ in range(times):
        begin = time.perf_counter()
        made()
        took.append((time.perf_counter() - begin) * 1_000)
    return took


def ping(conn):
    conn.sendall(request("ping"))
    hear(conn)


def pings_side_by_side(conns):
    for conn in conns:
        conn.sendall(request("ping"))
    for conn in conns:
        hear(conn)


def bans_one_by_one(conn, first):
    """How many bans a second are taken that are asked for one by one."""
    begin = time.perf_counter()
    for number in range(first, first + BANS):
        conn.sendall(request("set", "web", "banip", address(number)))
        hear(conn)
    return BANS / (time.perf_counter() - begin)


def bans_by_sixteen(conns, first):
    """How many bans a second are taken that sixteen clients ask for one by one."""
    rounds = BANS // len(conns)
    begin = time.perf_counter()
    for each in range(rounds):
        for place, conn in enumerate(conns):
            conn.sendall(request("set", "web", "banip", address(first + each * len(conns) + place)))
        for conn in conns:
            hear(conn)
    return rounds * len(conns) / (time.perf_counter() - begin)


def bans_in_one_request(conn, first):
    """How many bans a second are taken of which many are asked for in one request."""
    rounds = max(1, BANS // MANY)
    begin = time.perf_counter()
    for each in range(rounds):
        conn.sendall(request("set", "web", "banip", *(address(first + each * MANY + number) for number in range(MANY))))
        if hear(conn) != str(MANY):
            sys.exit("some were banned before")
    return rounds * MANY / (time.perf_counter() - begin)


def ask(conn, *words):
    conn.sendall(request(*words))
    return hear(conn)


def ban_up_to(conn, first, count):
    """Bans addresses from a number on, many in a request, until so many are banned."""
    left = count - len(ask(conn, "get", "web", "banip").split())
    for number in range(first, first + left, MANY):
        ask(conn, "set", "web", "banip", *map(address, range(number, min(number + MANY, first + left))))


def many_jails(place):
    """A configuration with the filters that ship, each for a jail or two with a log of its own."""
    names = sorted(name.removesuffix(".conf") for name in os.listdir(FILTERS) if name != "common.conf")
    jails = [f"[jail{number}]\nenabled = true\nfilter = {names[number % len(names)]}\nlogpath = {place}/{number}.log\n" for number in range(JAILS)]
    return "\n".join(jails)


def reloads(server, place):
    """How long a client waits for the configuration to be read again, where nothing of it changed."""
    bench = Bench(server, place, many_jails(place))
    try:
        conn = bench.connect()
        row(f"`reload` with {JAILS} jails", milliseconds(PINGS // 40, lambda: ask(conn, "reload")))
        ask(conn, "stop")
        bench.process.wait()
    finally:
        bench.process.kill()
        bench.process.wait()


def status_kib(process, field):
    """A line of what the system tells of a process, in KiB."""
    with open(f"/proc/{process.pid}/status") as file:
        return next(int(line.split()[1]) for line in file if line.startswith(f"{field}:"))


def processor_time(process):
    """How many nanoseconds a process has had a processor."""
    with open(f"/proc/{process.pid}/schedstat") as file:
        return int(file.read().split()[0])


def cost_row(name, process, times, made):
    """Prints how many microseconds of a processor the server needs for a request, and how many KiB it has at most above what it has without."""
    stands = status_kib(process, "VmRSS")
    # From here on the system counts the most memory anew.
    with open(f"/proc/{process.pid}/clear_refs", "w") as file:
        file.write("5")
    begin = processor_time(process)
    for _ in range(times):
        made()
    took = (processor_time(process) - begin) / times / 1_000
    print(f"| {name} | {took:.1f} | {max(0, status_kib(process, 'VmHWM') - stands)} |")


def row(name, took):
    print(f"| {name} | {statistics.median(took):.2f} | {min(took):.2f} | {max(took):.2f} |")


def main(server, client, folder):
    with tempfile.TemporaryDirectory(dir=folder) as place:
        bench = Bench(server, place, CONFIGURATION.format(place=place))
        try:
            conns = [bench.connect() for _ in range(AT_ONCE)]
            command = [client, "-s", bench.path, "ping"]
            print("| from request to reply, ms | median | least | most |\n|---|---|---|---|")
            for name, times, made in [
                ("ping over one connection", PINGS, lambda: ping(conns[0])),
                ("16 pings, one of each client", PINGS // AT_ONCE, lambda: pings_side_by_side(conns)),
            ]:
                row(name, milliseconds(times, made))
            conns.pop().close()
            row("`fail2ban-client ping`, from start to end", milliseconds(PINGS // 10, lambda: subprocess.run(command, stdout=subprocess.DEVNULL, check=True)))
            print("\n| a request, with nobody banned | of a processor, microseconds | peak, KiB more |\n|---|---|---|")
            cost_row("`ping`", bench.process, PINGS, lambda: ping(conns[0]))
            print("\n| bans a second | |\n|---|---|")
            print(f"| asked for one by one | {bans_one_by_one(conns[0], 0):,.0f} |")
            print(f"| asked for one by one, by {len(conns)} clients | {bans_by_sixteen(conns, BANS):,.0f} |")
            print(f"| {MANY} in a request | {bans_in_one_request(conns[0], 2 * BANS):,.0f} |")
            ban_up_to(conns[0], 4 * BANS, BANNED)
            print(f"\n| with {BANNED:,} bans, ms | median | least | most |\n|---|---|---|---|")
            for words in ["ping", "status web", "get web banip"]:
                row(f"`{words}`", milliseconds(PINGS // 10, lambda: ask(conns[0], *words.split())))
            print(f"\n| a request, with {BANNED:,} bans | of a processor, microseconds | peak, KiB more |\n|---|---|---|")
            for words in ["ping", "status web"]:
                cost_row(f"`{words}`", bench.process, PINGS // 10, lambda: ask(conns[0], *words.split()))
            ask(conns[0], "stop")
            if bench.process.wait() != 0:
                sys.exit(f"the server ended with {bench.process.returncode}")
        finally:
            bench.process.kill()
            bench.process.wait()
        reloads(server, f"{place}/more")


if __name__ == "__main__":
    main(os.path.abspath(sys.argv[1]), os.path.abspath(sys.argv[2]), sys.argv[3] if len(sys.argv) > 3 else None)
