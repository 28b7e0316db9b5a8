"""Reads and writes the slots of a journal, as docs/journal.md has them and by nothing else: it shares no line with the server's own reader.

    slots.py FILE    prints what a slot holds

A field that has no reading raises `Bad` with its place, in bytes from the slot's beginning.
"""

import ipaddress
import sys

# A slot of so many bytes at most is empty.
NO_SLOT = 16

# Where the view of a slot begins: behind its gate, its generation and its version.
VIEW_AT = 10

LAST_GENERATION = 1 << 62
MOMENTS = 1 << 40
IDS = 1 << 63
LONGEST_SPAN = 3_153_600_000
A_DAY = 86_400

# The view before the first configuration.
FIRST_VIEW = bytes([0x00, 0x80, 0xA3, 0x05, 0, 0, 0, 0, 0, 0, 0])


class Bad(Exception):
    """The place of the first field that has no reading."""

    def __init__(self, at):
        super().__init__(at)
        self.at = at


class Reader:
    """The fields of some bytes, from a place on, in one of the two versions."""

    def __init__(self, data, at=0, version=2):
        self.data, self.at, self.version = data, at, version
        # Where the lines of failures stand.
        self.lines = []

    def byte(self, below=256):
        if self.at >= len(self.data) or self.data[self.at] >= below:
            raise Bad(self.at)
        self.at += 1
        return self.data[self.at - 1]

    def number(self, below=1 << 64, least=0):
        begin, value, shift = self.at, 0, 0
        while True:
            if self.at >= len(self.data) or shift > 63:
                raise Bad(begin)
            byte = self.data[self.at]
            self.at += 1
            value |= (byte & 127) << shift
            shift += 7
            if byte < 128:
                break
        if byte == 0 and shift > 7 or not least <= value < min(below, 1 << 64):
            raise Bad(begin)
        return value

    def signed(self, least, most):
        begin = self.at
        value = self.number()
        value = value >> 1 if value % 2 == 0 else -(value >> 1) - 1
        if not least <= value <= most:
            raise Bad(begin)
        return value

    def flag(self):
        return self.byte(2)

    def bytes(self, most=1 << 63):
        begin = self.at
        count = self.number()
        if count > most or self.at + count > len(self.data):
            raise Bad(begin)
        self.at += count
        return self.data[self.at - count : self.at]

    def text(self, most=1 << 63):
        begin = self.at
        try:
            return self.bytes(most).decode()
        except UnicodeDecodeError as why:
            raise Bad(begin) from why

    def name(self):
        begin = self.at
        name = self.text(64)
        if not name or not all(letter.isascii() and (letter.isalnum() or letter in "_.-") for letter in name):
            raise Bad(begin)
        return name

    def pattern(self):
        return self.text(8_192)

    def option(self, read):
        return read() if self.flag() else None

    def list(self, read, most=1 << 63, before=lambda earlier, item: True):
        """`before` tells whether an item may stand behind those before it."""
        begin = self.at
        count = self.number()
        if count > most:
            raise Bad(begin)
        items = []
        while len(items) < count:
            begin = self.at
            item = read()
            if not before(items, item):
                raise Bad(begin)
            items.append(item)
        return items

    def address(self):
        begin = self.at
        family = self.byte()
        size = {4: 4, 6: 16}.get(family)
        if size is None or self.at + size > len(self.data):
            raise Bad(begin)
        self.at += size
        address = ipaddress.ip_address(self.data[self.at - size : self.at])
        if family == 6 and address.ipv4_mapped is not None:
            raise Bad(begin)
        return address

    def mask(self):
        address = self.address()
        begin = self.at
        prefix = self.byte()
        bits = address.max_prefixlen
        if prefix > bits or int(address) & ((1 << bits - prefix) - 1):
            raise Bad(begin)
        return address, prefix

    def family(self):
        begin = self.at
        family = self.byte()
        if family not in (0, 4, 6):
            raise Bad(begin)
        return family

    def moment(self):
        return self.number(MOMENTS)

    def span(self):
        return self.number(LONGEST_SPAN + 1, 1)

    def count(self):
        return self.number(1 << 32)

    def failure(self):
        address, moment, begin = self.address(), self.moment(), self.at
        line = self.text(512) if self.version == 2 else ""
        self.lines.append((begin, self.at))
        return address, moment, line

    def until(self):
        return self.moment() if self.flag() else None

    def ban(self):
        return self.number(IDS), self.address(), self.moment(), self.until(), self.count(), self.count()

    def past_ban(self):
        return self.address(), self.moment()

    def place(self):
        if not self.flag():
            return None
        position = self.number()
        begin = self.at
        head = self.bytes()
        if len(head) != min(position, 64):
            raise Bad(begin)
        return position, head

    def dates(self):
        kind = self.byte(7)
        return kind, self.pattern() if kind >= 5 else None

    def first_span(self):
        begin = self.at
        first = self.signed(-LONGEST_SPAN, LONGEST_SPAN)
        if first == 0:
            raise Bad(begin)
        return first

    def rule(self):
        thousandths = lambda: self.number(1_000_001, 1)  # noqa: E731
        return self.first_span(), self.flag(), thousandths(), self.list(thousandths, 64), self.span(), self.number(1_000_001)

    def action(self):
        return self.text(), self.family(), [self.text() for _ in range(5)], self.span()

    def jail(self):
        """A jail's definition."""
        name = self.name()
        logs = self.list(lambda: (self.text(), self.flag()), 4_096, lambda earlier, log: log[0] not in [path for path, _ in earlier])
        begin = self.at
        zone = self.signed(-A_DAY + 1, A_DAY - 1)
        if zone % 60:
            raise Bad(begin)
        dates = self.dates()
        first = self.option(self.pattern)
        failing = self.list(self.pattern, 512)
        ignoring = self.list(self.pattern, 512)
        masks = self.list(self.mask)
        findtime, maxretry, maxmatches = self.span(), self.number(100_001, 1), self.number(1_001)
        rule = self.rule()
        actions = self.list(self.action, 32, lambda earlier, one: one[:2] not in [other[:2] for other in earlier])
        jail = {"name": name, "logs": logs, "zone": zone, "dates": dates, "first": first, "failing": failing, "ignoring": ignoring}
        jail |= {"masks": masks, "findtime": findtime, "maxretry": maxretry, "maxmatches": maxmatches, "rule": rule, "actions": actions}
        return jail

    def definitions(self):
        age = self.number(LONGEST_SPAN + 1)

        def fits(earlier, jail):
            patterns = sum(len(one["failing"]) + len(one["ignoring"]) for one in [*earlier, jail])
            return jail["name"] not in [one["name"] for one in earlier] and patterns <= 512

        return age, self.list(self.jail, 256, fits)

    def lane(self):
        return self.name(), self.text(), self.family()

    def job(self):
        number, lane, kind, address = self.number(IDS), self.lane(), self.byte(5), self.option(self.address)
        return {"id": number, "lane": lane, "kind": kind, "address": address, "text": self.text(), "timeout": self.span(), "failed": self.byte(3)} | {
            "due": self.moment()
        }

    def ending(self):
        kind = self.byte(3)
        return kind, self.signed(-(1 << 63), (1 << 63) - 1) if kind == 0 else None

    def view_jail(self, now, definition):
        begin = self.at
        name = self.name()
        if name != definition["name"]:
            raise Bad(begin)
        idle, counted, begun, last = self.flag(), self.number(), self.number(), self.moment()

        def key(failure):
            return failure[0].version, int(failure[0]), failure[1]

        failures = self.list(self.failure, before=lambda earlier, one: one[1] <= now and (not earlier or key(earlier[-1]) <= key(one)))

        def is_next(earlier, ban):
            return (not earlier or earlier[-1][0] < ban[0]) and ban[1] not in [other[1] for other in earlier]

        bans = self.list(self.ban, before=is_next)
        past = self.list(self.past_ban, before=lambda earlier, one: not earlier or earlier[-1][1] <= one[1])
        begin = self.at
        logs = iter(definition["logs"])

        def log():
            begin = self.at
            path = self.text()
            if path != next(logs)[0]:
                raise Bad(begin)
            return path, self.place()

        if Reader(self.data, self.at).number() != len(definition["logs"]):
            raise Bad(begin)
        logs_read = self.list(log)
        jail = {"name": name, "idle": idle, "counted": counted, "begun": begun, "last": last}
        return jail | {"failures": failures, "bans": bans, "past": past, "logs": logs_read}

    def view(self):
        now = self.moment()
        age, definitions = self.definitions()
        stopping = self.flag()
        up = self.list(lambda: (self.name(), self.action()), before=lambda earlier, one: lane_of(one) not in map(lane_of, earlier))
        begin = self.at
        if Reader(self.data, self.at).number() != len(definitions):
            raise Bad(begin)
        of = iter(definitions)
        jails = self.list(lambda: self.view_jail(now, next(of)))
        jobs = self.list(self.job, before=lambda earlier, one: not earlier or earlier[-1]["id"] < one["id"])
        begin = self.at
        next_id = self.number(IDS + 1)
        if any(job["id"] >= next_id for job in jobs):
            raise Bad(begin)
        begin = self.at
        next_serial = self.number(IDS + 1)
        if any(ban[0] >= next_serial for jail in jails for ban in jail["bans"]):
            raise Bad(begin)
        view = {"now": now, "age": age, "definitions": definitions, "stopping": stopping, "up": up, "jails": jails}
        return view | {"jobs": jobs, "next_id": next_id, "next_serial": next_serial}

    def happened(self):
        kind = self.byte(14)
        if kind == 0:
            return "time passed", None
        if kind == 1:
            return "read", (self.name(), self.text(), self.place(), self.list(self.failure, 1 << 62))
        if kind == 2:
            return "try ended", (self.number(IDS), self.ending())
        if kind == 3:
            return "configuration", self.definitions()
        if kind == 4:
            return "stop", None
        if kind == 5:
            return "ban", (self.name(), self.list(self.address, 1 << 62, lambda earlier, one: one not in earlier))
        if kind == 6:
            return "unban", (self.option(self.name), self.option(lambda: self.list(self.address)))
        if kind == 7:
            return "attempt", (self.name(), self.address())
        if kind == 8:
            return "ignored", (self.name(), self.mask(), self.flag())
        if kind == 9:
            return "findtime", (self.name(), self.span())
        if kind == 10:
            return "bantime", (self.name(), self.first_span())
        if kind == 11:
            return "maxretry", (self.name(), self.number(100_001, 1))
        if kind == 12:
            return "idle", (self.name(), self.flag())
        return "check failed", (self.number(IDS), self.ending())

    def input(self):
        return (self.moment(), self.number(), *self.happened())


def lane_of(up):
    return up[0], up[1][0], up[1][1]


class Slot:
    """What a slot says: nothing, or its generation, its view, its inputs, and where its closed gate stands."""

    def __init__(self, data):
        self.is_open = len(data) > NO_SLOT and data[0] != 0
        self.inputs = []
        if not self.is_open:
            return
        self.generation = int.from_bytes(data[1:9], "big")
        if not 1 <= self.generation <= LAST_GENERATION:
            raise Bad(1)
        self.version = data[9]
        if self.version not in (1, 2):
            raise Bad(9)
        fields = Reader(data, VIEW_AT, self.version)
        self.view = fields.view()
        while fields.byte():
            self.inputs.append(fields.input())
        self.end = fields.at - 1
        self.lines = fields.lines


def journal(first, second):
    """The slot that counts of two, or None where none is open. Where one is no journal `Bad` has its number too."""
    read = []
    for number, data in enumerate([first, second]):
        try:
            if number == 1 and read[0].is_open and len(data) > NO_SLOT and data[0] != 0 and data[1:9] == first[1:9]:
                raise Bad(1)
            read.append(Slot(data))
        except Bad as why:
            why.slot = number
            raise
    counting = [slot for slot in read if slot.is_open]
    return max(counting, key=lambda slot: slot.generation) if counting else None


def in_version_1(data):
    """A slot in version 1 that has what a slot of version 2 has, but the lines of failures."""
    for begin, end in reversed(Slot(data).lines):
        data = data[:begin] + data[end:]
    return data[:9] + b"\x01" + data[10:]


def number(value):
    """A number as bytes."""
    out = bytearray()
    while value > 127:
        out.append(value & 127 | 128)
        value >>= 7
    out.append(value)
    return bytes(out)


def spelt(data):
    """Bytes, or a text, as bytes."""
    data = data.encode() if isinstance(data, str) else data
    return number(len(data)) + data


def slot(view, *inputs, generation=1, version=2):
    """A slot of a view and inputs, which are bytes."""
    return b"\x01" + generation.to_bytes(8, "big") + bytes([version]) + view + b"".join(b"\x01" + one for one in inputs) + b"\x00"


def read_input(moment, word, jail, path, position, head, failures):
    """The input that a log was read to a position, and that failures were found: of IPv4 addresses as numbers, with moments and lines."""
    found = b"".join(b"\x04" + address.to_bytes(4, "big") + number(at) + spelt(line) for address, at, line in failures)
    place = b"\x01" + number(position) + spelt(head)
    return number(moment) + number(word) + b"\x01" + spelt(jail) + spelt(path) + place + number(len(failures)) + found


if __name__ == "__main__":
    if len(sys.argv) != 2:
        sys.exit(__doc__)
    with open(sys.argv[1], "rb") as file:
        shown = Slot(file.read())
    if not shown.is_open:
        sys.exit("it is empty")
    print(f"generation {shown.generation}, version {shown.version}, closed at {shown.end}")
    print(f"view: {shown.view}")
    for one in shown.inputs:
        print(f"input: {one}")
