"""What has to agree once all is quiet: model, `status`, the journal and the commands."""

import collections
import glob
import re
import time

from firewall import Firewall

# The lines that a server may say here. Those of a jail have its name and what they tell of.
LINE = re.compile(r"(?:INFO|NOTICE) \[(\w+)\] (Found|Ban|Unban|rotated) (\S+)")
FAILED = re.compile(r"ERROR \[\w+/note\] ban failed: status 1")
RESTARTED = ["WARNING [mail/note] check failed: status 1", "INFO [mail/note] restart"]
STATUS = re.compile(
    r"Status for the jail: (?P<name>\w+)\n\|- Filter\n\|  \|- Currently failed:\t(?P<failing>\d+)\n\|  \|- Total failed:\t(?P<failed>\d+)\n"
    r"\|  `- File list:\t(?P<files>.*)\n`- Actions\n   \|- Currently banned:\t(?P<held>\d+)\n   \|- Total banned:\t(?P<bans>\d+)\n"
    r"   `- Banned IP list:\t(?P<listed>.*)"
)


def status_of(soak, jail):
    """What the server says of a jail: the parts of its status, and its bans with their times."""
    _, text = soak.ask("status", jail.name)
    parts = STATUS.fullmatch(text)
    if parts is None:
        soak.fault(f"no status: {text!r}")
        return None
    _, bans = soak.ask("get", jail.name, "banip", "--with-time")
    return {**parts.groupdict(), "listed": parts["listed"].split(), "times": bans}


def kept_out(soak, jail):
    """Whom the commands of a jail keep out."""
    firewall = Firewall(jail.name)
    firewall.run(soak.notes.notes)
    return firewall


def wait_quiet(soak, patience):
    """Waits until the commands have done what the server says, short bans are over, and nothing more happens."""
    last, since, quiet = None, time.monotonic(), 0
    while quiet < 3 and time.monotonic() < since + patience:
        time.sleep(0.5)
        soak.notes.look()
        statuses = [status_of(soak, jail) for jail in soak.jails]
        now = [status and status["times"] for status in statuses], soak.notes.read
        if now != last:
            last, since = now, time.monotonic()
        agrees = all(status and set(status["listed"]) == set(kept_out(soak, jail).kept_out) for status, jail in zip(statuses, soak.jails))
        over = all(not status["listed"] for status, jail in zip(statuses, soak.jails) if status and jail.is_brief())
        quiet = quiet + 1 if agrees and over and not soak.server().children() else 0
    if quiet < 3:
        soak.fault(f"no quiet within {patience} s")


def differ(one, other):
    """How many there are, and some of them."""
    return f"{len(one - other)} as {sorted(one - other)[:3]}"


def of_jail(soak, jail):
    """Compares what a server says of a jail with the model and with the commands, and gives a row of the table."""
    status, firewall = status_of(soak, jail), kept_out(soak, jail)
    certain, possible = (set(), set()) if jail.is_brief() else jail.banned()
    listed = set(status["listed"])
    holds = [
        (certain <= listed, f"not banned are {differ(certain, listed)}"),
        (listed <= possible, f"banned are {differ(listed, possible)}"),
        (listed == set(firewall.kept_out), f"kept out are {differ(set(firewall.kept_out), listed)}, and not {differ(listed, set(firewall.kept_out))}"),
        (len(status["listed"]) == len(listed) == int(status["held"]), "a ban is listed twice, or not counted"),
        (firewall.version == soak.conf.versions[jail.name], f"the action's version is {firewall.version}"),
        (firewall.stopped_full <= (soak.done["emptied"] if jail.name == "mail" else 0), f"{firewall.stopped_full} stops with somebody kept out"),
    ]
    made = {ip: bans for (name, ip), bans in soak.notes.made.items() if name == jail.name}
    counts = [
        ("failures", int(status["failed"]), jail.count_of_failures(lambda ip: len(made.get(ip, ())))),
        ("bans", int(status["bans"]), jail.count_of_bans()),
        ("bans of commands", sum(map(len, made.values())), (int(status["bans"]),) * 2),
        ("failing addresses", int(status["failing"]), jail.count_of_failing()),
    ]
    holds += [(least <= saw <= most, f"{saw} {what}, and not {least} to {most}") for what, saw, (least, most) in counts]
    holds += [(bans_hold(jail, ip, bans), f"the bans of {ip} are {bans}") for ip, bans in made.items()]
    soak.faults += [f"{jail.name}: {fault}" for fact, fault in holds if not fact]
    return [jail.name, len(certain), len(possible - certain), len(listed), len(firewall.kept_out), *(f"{saw:,}" for _, saw, _ in counts[:2]), firewall.again]


def bans_hold(jail, ip, bans):
    """Whether an address had as many bans as it had to have, each as long as it had to be."""
    who = jail.addresses.get(ip)
    return (
        who is not None
        and who.bans <= len(bans) <= who.bans + who.may_ban
        and sorted(bans) == list(range(len(bans)))
        and all(note.lasts == jail.lasts(over) for over, note in bans.items())
    )


def lines_hold(soak):
    """Compares what all servers said with the model. A line that a kill forestalls is missing; none may be too many."""
    jails, said, reloads, refused, failed, restarted = {jail.name: jail for jail in soak.jails}, collections.Counter(), 0, 0, 0, 0
    for line in (line for server in soak.servers for line in server.said()):
        match = LINE.fullmatch(line)
        if match:
            said[match.groups()] += 1
        elif FAILED.fullmatch(line):
            failed += 1
        elif line == "INFO Reloaded":
            reloads += 1
        elif line.startswith(("ERROR Configuration refused: ", "ERROR Pattern refused: ")):
            refused += 1
        elif line in RESTARTED:
            restarted += line == RESTARTED[1]
        elif line not in ("INFO Server ready", "INFO Stopping"):
            soak.fault(f"a server says {line!r}")
    for (name, what, whom), count in said.items():
        who = jails[name].addresses.get(whom)
        if what != "rotated" and (who is None or count > (who.counted + who.may_fail if what == "Found" else who.bans + who.may_ban)):
            soak.fault(f"{count} times a server says [{name}] {what} {whom}")
    tried = len(glob.glob(f"{soak.place}/tried-*"))
    for what, saw, least, most in [
        ("reloads", reloads, soak.done["reloads"], soak.done["reloads"] + soak.done["kills"]),
        ("refusals", refused, soak.done["refused"], soak.done["refused"]),
        ("rotations", sum(count for (_, what, _), count in said.items() if what == "rotated"), 0, soak.done["rotations"]),
        ("commands that failed", failed, 0, tried),
        ("restarts of an action", restarted, 0, soak.done["emptied"]),
    ]:
        if not least <= saw <= most:
            soak.fault(f"{saw} {what} are said, and not {least} to {most}")
    return sum(said.values())
