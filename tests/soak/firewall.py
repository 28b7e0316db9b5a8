"""What the commands of the actions did, by the file in which they note it: a firewall that keeps out whom it was told to."""

import collections
import time

# What a command does, in the folder of the run. It fails at the first try for some addresses, and takes a while for others. Its server is the last part of
# its PATH.
NOTE = """\
case "$1$7" in
start) rm -f "emptied-$2";;
ban*57) mkdir "tried-$7" 2>/dev/null && exit 1;;
*3) sleep "0.0$(($4 % 10))";;
esac
echo "${PATH##*:/} $*" >> done
"""

ACTION = """\
[Definition]
actionstart = set -- start <name> <version> <time> <bantime> <bancount>; . ./note
actionstop = set -- stop <name> <version> <time> <bantime> <bancount>; . ./note
actionban = set -- ban <name> <version> <time> <bantime> <bancount> <ip>; . ./note
actionunban = set -- unban <name> <version> <time> <bantime> <bancount> <ip>; . ./note
actioncheck = <check>
[Init]
version = 1
check =
"""

# What the check of a jail's action is, where it has one: somebody may have emptied the firewall.
CHECK = "[ ! -e emptied-{name} ]"

# A command that was run: by which server, and what for. Over is how many bans of the address were over when this one began.
Note = collections.namedtuple("Note", "server kind jail version begin lasts over ip")


def note_of(line):
    server, kind, jail, version, begin, lasts, over, *ip = line.split(" ")
    return Note(int(server), kind, jail, int(version), int(begin), int(lasts), int(over), "".join(ip))


class Notes:
    """All that was noted so far."""

    def __init__(self, place):
        self.path, self.read = f"{place}/done", 0
        self.notes, self.count = [], 0
        # The bans that were made, by jail and address, and those that were taken back.
        self.made, self.taken_back = collections.defaultdict(dict), set()

    def look(self):
        """Reads what was noted since the last look."""
        try:
            with open(self.path, "rb") as file:
                file.seek(self.read)
                data = file.read().rpartition(b"\n")
        except FileNotFoundError:
            return
        self.read += len(data[0]) + len(data[1])
        for line in data[0].decode().splitlines():
            note = note_of(line)
            self.notes.append(note)
            if note.kind == "ban":
                self.count += note.over not in self.made[note.jail, note.ip]
                self.made[note.jail, note.ip][note.over] = note
            elif note.kind == "unban":
                self.taken_back.add((note.jail, note.ip, note.over))

    def is_over(self, jail, ip, seconds):
        """Whether the last ban of an address is over by so many seconds."""
        over = jail.addresses[ip].bans - 1
        ban = self.made[jail.name, ip].get(over)
        return ban is not None and (jail.name, ip, over) in self.taken_back and time.time() >= ban.begin + ban.lasts + seconds

    def owed(self, jails):
        """How many bans have to be made by commands, and were not made at the last look."""
        return sum(who.bans for jail in jails for who in list(jail.addresses.values())) - self.count


class Firewall:
    """What one jail's commands come to, one behind the other: whether its action is up, in which version, and whom it keeps out."""

    def __init__(self, jail):
        self.jail, self.faults, self.again = jail, [], 0
        # How often it was stopped with somebody kept out, as where a check failed.
        self.stopped_full = 0
        self.version, self.kept_out = None, {}

    def run(self, notes):
        """Runs the commands of the jail. A server that was killed may have started the last one of its own, which the next one runs again."""
        last = None
        # A command that a killed server had started may note itself late.
        for note in sorted((note for note in notes if note.jail == self.jail), key=lambda note: note.server):
            if last and last[1:] == note[1:]:
                self.again += 1
                self.holds(last.server < note.server, "run twice by one server", note)
                continue
            last = note
            getattr(self, note.kind)(note)

    def holds(self, fact, what, note):
        if not fact:
            self.faults.append(f"{what}: {note}")

    def start(self, note):
        self.holds(self.version is None, "a start of what is up", note)
        self.holds(not self.kept_out, "a start with somebody kept out", note)
        self.version = note.version

    def stop(self, note):
        self.holds(self.version == note.version, "a stop of what is not up", note)
        self.stopped_full += bool(self.kept_out)
        self.version, self.kept_out = None, {}

    def ban(self, note):
        self.holds(self.version == note.version, "a ban by what is not up", note)
        self.holds(note.ip not in self.kept_out, "a ban of who is kept out", note)
        self.kept_out[note.ip] = note

    def unban(self, note):
        self.holds(self.version == note.version, "an unban by what is not up", note)
        ban = self.kept_out.pop(note.ip, None)
        self.holds(ban is not None and ban[4:] == note[4:], f"an unban of another ban than {ban}", note)
