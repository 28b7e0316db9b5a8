"""Measures what the server's journal costs: appends, a start over a long one, and a change of slots.

    journal.py SERVER [FOLDER]

The journal lies in a folder that is made in FOLDER, and is removed: it is its disk that is measured. Long journals are written here, by the page of
the docs that tells how.
"""

import os
import random
import subprocess
import sys
import tempfile
import time

sys.path.append(os.path.join(os.path.dirname(__file__), "..", "tests", "real"))

import slots  # noqa: E402

# So long a slot may get where nothing else is said.
LIMIT = 67_108_864

# How many logs are followed by one jail: each look at one of them that finds a failure is an input. FOLDERS=2, say, and LENGTH=1000000, to see the
# script at work.
FOLDERS, LOGS = int(os.environ.get("FOLDERS", 32)), 64

# A turn of so many seconds is measured once.
LONG = 5

JAIL = """\
[web]
enabled = true
logpath = {logs}
ignoreself = false
datepattern = Epoch
failregex = ^ fail from <IP4>$
findtime = 600
maxretry = {maxretry}
maxmatches = 5
bantime = 60000
"""

# A jail keeps the lines of its failures where a command shows them.
SHOWS = "action = show\n"
SHOW = "[Definition]\nactionban = : '<matches>'\n"


def address(number):
    return f"10.{number >> 16 & 255}.{number >> 8 & 255}.{number & 255}"


class Bench:
    """A configuration in a folder, with a log that is not there."""

    def __init__(self, place, logs=None, maxretry=100_000, shows=False):
        self.place = place
        self.log = f"{place}/web.log"
        os.makedirs(f"{place}/conf/action.d")
        with open(f"{place}/conf/jail.conf", "w") as file:
            file.write(JAIL.format(logs=logs or self.log, maxretry=maxretry) + (SHOWS if shows else ""))
        with open(f"{place}/conf/action.d/show.conf", "w") as file:
            file.write(SHOW)
        with open(f"{place}/conf/fail2ban.conf", "w") as file:
            file.write(f"[Definition]\nsocket = {place}/run/fail2ban.sock\n")

    def slot(self, number):
        return f"{self.place}/run/journal.{number}"

    def begun(self, server):
        """The first slot of a server that has taken its configuration and nothing more, without its last gate."""
        subprocess.run([server, "--conf", f"{self.place}/conf", "--turns", "1"], stdout=subprocess.DEVNULL, check=True)
        with open(self.slot(0), "rb") as file:
            data = file.read()
        return data[: slots.Slot(data).end]

    def start(self, server, *words):
        words = [server, "--conf", f"{self.place}/conf", *words]
        return subprocess.Popen(words, stdin=subprocess.DEVNULL, stdout=subprocess.PIPE, bufsize=0)

    def ready(self, server, *words):
        """Starts a server and waits until it is ready: the server, how long that took, and the most memory that it had, in MiB."""
        begin = time.monotonic()
        process = self.start(server, *words)
        line = process.stdout.readline()
        took = time.monotonic() - begin
        if not line.endswith(b" INFO Server ready\n"):
            sys.exit(f"the server said {line!r}")
        return process, took, peak_memory(process)


def peak_memory(process):
    with open(f"/proc/{process.pid}/status") as status:
        return next(int(line.split()[1]) for line in status if line.startswith("VmHWM:")) / 1024


def processor_time(process):
    """In seconds, with a resolution of a hundredth."""
    with open(f"/proc/{process.pid}/stat") as stat:
        fields = stat.read().rsplit(")", 1)[1].split()
    return (int(fields[11]) + int(fields[12])) / os.sysconf("SC_CLK_TCK")


def end(process):
    process.kill()
    process.wait()
    process.stdout.close()


def appends_alone(folder, length=130, most=3.0):
    """How many appends of so many bytes a second the disk takes by itself, by the same four calls: write, sync, write one byte, sync."""
    with tempfile.NamedTemporaryFile(dir=folder) as file:
        number, at, count, begin = file.fileno(), 0, 0, time.monotonic()
        while time.monotonic() < begin + most:
            os.pwrite(number, bytes(length), at + 1)
            os.fdatasync(number)
            os.pwrite(number, b"\x01", at)
            os.fdatasync(number)
            at, count = at + length, count + 1
        return count / (time.monotonic() - begin)


def appends(server, folder):
    """How many inputs a second a server writes that has one at each look, and its processor time for each beside that of a look that finds nothing."""
    with tempfile.TemporaryDirectory(dir=folder) as place:
        folders = [f"{place}/logs-{number}" for number in range(FOLDERS)]
        for each in folders:
            os.mkdir(each)
            for number in range(LOGS):
                open(f"{each}/{number}.log", "w").close()
        bench = Bench(place, logs="\n    ".join(f"{each}/*.log" for each in folders))
        process, _took, _peak = bench.ready(server)
        try:
            rates, times = [], []
            idle = idle_turn(process)
            for turn in range(4):
                now = int(time.time())
                for at, each in enumerate(folders):
                    for number in range(LOGS):
                        with open(f"{each}/{number}.log", "a") as log:
                            log.write(f"{now} fail from {address(turn << 16 | at << 8 | number)}\n")
                used, begin, left = processor_time(process), 0, FOLDERS * LOGS
                while left > 0:
                    left -= process.stdout.read(1 << 16).count(b"\n")
                    begin = begin or time.monotonic()
                took = time.monotonic() - begin
                # The first turn's lines come while logs are still written: it counts where the disk is so slow that it is long.
                if turn > 0 or took > LONG:
                    rates.append(FOLDERS * LOGS / took)
                    times.append((processor_time(process) - used - idle) / (FOLDERS * LOGS))
                if took > LONG:
                    break
            return max(rates), min(times) * 1e6
        finally:
            end(process)


def idle_turn(process):
    """The processor time of a turn that finds nothing."""
    before = processor_time(process)
    time.sleep(3)
    # A pause of many logs ends after a quarter of a second, and the looks come on top.
    return (processor_time(process) - before) / (3 / 0.27)


def long_journal(bench, server, length, bans):
    """A slot of so many bytes: looks with one failure each, of 50,000 addresses at random, 250 a second, up to now."""
    begun = bench.begun(server)
    chance, head, pieces, at = random.Random(1), b"x" * 64, [begun], len(begun) + 1
    first = int(time.time()) - length // 120 // 250 - 1
    count = 0
    while True:
        moment = first + count // 250
        failing = 0x0A000000 + (count if bans else chance.randrange(50_000))
        piece = slots.read_input(moment, chance.randrange(1 << 30), "web", bench.log, 64 + 30 * count, head, [(failing, moment, "")])
        if at + len(piece) + 1 > length:
            break
        pieces += [b"\x01", piece]
        at += len(piece) + 1
        count += 1
    return b"".join(pieces) + b"\x00", count


def starts(server, folder, length, maxretry):
    """Starts over a slot of so many bytes that counts, and over the same one where another slot counts."""
    with tempfile.TemporaryDirectory(dir=folder) as place:
        bench = Bench(place, maxretry=maxretry)
        begun = bench.begun(server)
        data, count = long_journal(bench, server, length, maxretry == 1)
        with open(bench.slot(0), "wb") as file:
            file.write(data)
        process, took, peak = bench.ready(server)
        end(process)
        what = f"{len(data) / (1 << 20):.0f} MiB, {count:,} looks" + (", each a ban" if maxretry == 1 else "")
        print(f"{what:44} {took:8.2f} {peak:9.1f}", flush=True)
        # The same, but that slot 1, which counts, has next to nothing: so slot 0 is checked, and no step of it is taken.
        with open(bench.slot(1), "wb") as file:
            file.write(b"\x01" + (2).to_bytes(8, "big") + begun[9:] + b"\x00")
        process, took, peak = bench.ready(server)
        end(process)
        print(f"{'the same, while the other slot counts':44} {took:8.2f} {peak:9.1f}", flush=True)
        return took


def change(server, folder, bans, failures, length):
    """How long one failure takes from its line until it is said, where it is appended, and where slots are changed for it."""
    with tempfile.TemporaryDirectory(dir=folder) as place:
        bench = Bench(place, maxretry=1 if bans else 100_000, shows=length > 0)
        begun = bench.begun(server)
        now = int(time.time())
        found = [(0x0A000000 + number, now, "x" * length) for number in range(bans or failures)]
        piece = slots.read_input(now, 0, "web", bench.log, 64, b"x" * 64, found)
        # A view takes more bytes than the inputs that it comes of: time passes until the slot is longer than its view will be.
        passed = b"\x01" + slots.number(now) + b"\x00\x00"
        data = begun + b"\x01" + piece + passed * (20 * (bans or failures) // len(passed) + 500)
        with open(bench.slot(0), "wb") as file:
            file.write(data + b"\x00")
        took = []
        for numbers in [range(5), range(5, 6)]:
            # The last one finds no room for one input more.
            words = ["--journal-limit", str(os.path.getsize(bench.slot(0)) + 40)] if took else []
            process, _took, _peak = bench.ready(server, *words)
            try:
                times = []
                for number in numbers:
                    time.sleep(0.5)
                    begin = time.monotonic()
                    with open(bench.log, "a") as log:
                        log.write(f"{int(time.time())} fail from {address(0xF00000 + number)}\n")
                    line = process.stdout.readline()
                    while b"Found" not in line:
                        if not line:
                            sys.exit("the server ended")
                        line = process.stdout.readline()
                    times.append(time.monotonic() - begin)
                took.append(sorted(times)[len(times) // 2])
            finally:
                end(process)
        view = os.path.getsize(bench.slot(1)) if os.path.exists(bench.slot(1)) else 0
        what = f"{bans:,} bans" if bans else f"{failures:,} failures with lines of {length} bytes"
        print(f"{what:44} {view:10,} {took[0] * 1000:9.0f} {took[1] * 1000:9.0f}", flush=True)


def main(server, folder):
    print("appends of an input, each with two syncs      a second   processor us")
    memory = "/dev/shm"
    for what, where in [("this disk", folder), ("memory, where a sync costs nothing", memory)]:
        if os.access(where, os.W_OK):
            print(f"{what + ', by itself':44} {appends_alone(where):9.0f}")
            rate, used = appends(server, where)
            print(f"{what + ', by the server':44} {rate:9.0f} {used:14.0f}", flush=True)
    print()
    print(f"{'start over':44} {'s':>8} {'peak MiB':>9}")
    with tempfile.TemporaryDirectory(dir=folder) as place:
        bench = Bench(place)
        bench.begun(server)
        process, took, peak = bench.ready(server)
        end(process)
        print(f"{'a configuration and nothing more':44} {took:8.2f} {peak:9.1f}", flush=True)
    length = int(os.environ.get("LENGTH", LIMIT))
    starts(server, folder, length, 100_000)
    starts(server, folder, length, 1)
    print()
    print(f"{'from a line to its failure, with':44} {'view bytes':>10} {'append ms':>9} {'change ms':>9}")
    share = length / LIMIT
    change(server, folder, int(30_000 * share), 0, 0)
    change(server, folder, 0, int(120_000 * share), 110)


if __name__ == "__main__":
    if len(sys.argv) not in (2, 3):
        sys.exit(__doc__)
    main(os.path.abspath(sys.argv[1]), os.path.abspath(sys.argv[2]) if len(sys.argv) == 3 else tempfile.gettempdir())
