"""The commands of the actions, one after the other and without a server's run, as the server would run them."""

import os
import subprocess

import firewalls
from firewalls import FAMILIES, MARKS, addresses
from room import BOOT_ID, NOBODY, same, want

# A name with each kind of character that a jail's name may have.
NAME = "a.B_c-1"

ADDRESSES = {"inet4": ["192.0.2.7", "198.51.100.255"], "inet6": ["2001:db8::7", "2001:db8:1::ffff"]}


class Lane:
    """The commands of a lane, and the firewall that they change."""

    def __init__(self, room, firewall, commands, family):
        self.room, self.firewall, self.family = room, firewall, family
        self.mine = commands[family]

    def does(self, *kinds, address=""):
        """Each of these commands ends with 0, twice: what it makes is there already then, and what it takes is gone."""
        for kind in kinds:
            for again in ["", " once more"]:
                status, said = self.room.sh(self.mine.of(kind, address))
                same(status, 0, f"{self.family} {kind}{again} ({said})")

    def check_is(self, passes, when):
        status, said = self.room.sh(self.mine.of("check"))
        want((status == 0) == passes, f"{self.family} the check came to {status} {when} ({said})")

    def has(self, *addresses):
        same(self.firewall.banned(self.room, NAME, self.family), set(addresses), f"{self.family} banned")

    def leaves_nothing(self, when):
        same(self.firewall.traces_of(self.room, NAME), [], f"{self.family} there {when}")


def lanes(room, firewall, options=""):
    commands = room.commands(NAME, firewall.action + options)
    for family in FAMILIES:
        room.empty_firewall()
        yield Lane(room, firewall, commands, family), ADDRESSES[family]


def a_lane_goes_through_its_life(room, firewall, options=""):
    """from start to stop, each command twice"""
    for lane, (one, other) in lanes(room, firewall, options):
        lane.check_is(False, "before the start")
        lane.does("start")
        lane.check_is(True, "behind the start")
        lane.has()
        lane.does("ban", address=one)
        lane.does("ban", address=other)
        lane.has(one, other)
        lane.check_is(True, "with bans")
        lane.does("unban", address=one)
        lane.has(other)
        lane.does("start")
        lane.has()
        lane.check_is(True, "behind another start")
        lane.does("ban", address=one)
        lane.does("stop")
        lane.leaves_nothing("behind the stop")
        lane.check_is(False, "behind the stop")


def a_lane_over_an_empty_firewall(room, firewall):
    """over an empty firewall the commands of the lanes before it find nothing to do"""
    for lane, (one, other) in lanes(room, firewall):
        for before in [[], ["start", "ban"]]:
            lane.does(*before, address=one)
            room.empty_firewall()
            lane.check_is(False, "over an empty firewall")
            # A ban may come first, or behind the end of another one: in both orders it is no fault, and the firewall is not whole by it.
            lane.does("ban", "unban", "ban", "unban", address=one)
            room.empty_firewall()
            lane.does("unban", "ban", address=other)
            lane.check_is(False, "behind a ban over an empty firewall")
            lane.does("stop")
            lane.leaves_nothing("behind ban, unban and stop")
        lane.does("ban", address=other)
        lane.does("start")
        lane.has()
        lane.does("stop")
        lane.leaves_nothing("behind a start over what a ban had made")


def damage_is_seen(room, firewall):
    """what others do to it fails the check, and stop and start make it good"""
    for lane, (one, other) in lanes(room, firewall):
        for damage in firewall.damages:
            command = firewall.filled(damage, NAME, lane.family)
            lane.does("start")
            lane.does("ban", address=one)
            status, said = room.sh(command)
            same(status, 0, f"{command} ({said})")
            lane.check_is(False, f"behind {command}")
            lane.does("unban", address=one)
            lane.does("stop")
            lane.leaves_nothing(f"behind {command} and a stop")
            lane.does("start")
            lane.does("ban", address=other)
            lane.has(other)
            lane.check_is(True, f"behind {command} and a start")
            lane.does("stop")


def a_rule_less_is_seen(room, firewall):
    """with two protocols the check fails where the rule of either is gone"""
    for lane, _ in lanes(room, firewall, '[protocol="tcp,udp"]'):
        tables = firewall.filled("{ip}tables -w", NAME, lane.family)
        for protocol in ["tcp", "udp"]:
            lane.does("start")
            lane.check_is(True, "behind the start")
            rules = room.sh(f"{tables} -S INPUT")[1].splitlines()
            [rule] = [rule for rule in rules if f"-p {protocol} " in rule and f"f2b-{NAME}" in rule]
            status, said = room.sh(f"{tables} -D{rule.removeprefix('-A')}")
            same(status, 0, f"{rule} is taken away ({said})")
            lane.check_is(False, f"without the rule of {protocol}")
        lane.does("stop")
        lane.leaves_nothing("behind the stop")


def a_fault_is_told(room, firewall):
    """where the firewall may not be changed no command ends with 0"""
    how = {}
    for lane, (one, other) in lanes(room, firewall):
        lane.does("start")
        lane.does("ban", address=one)
        if room.is_real:
            how = {"user": NOBODY, "group": NOBODY, "extra_groups": [], "cwd": "/"}
        else:
            open(room.path("firewall/refuses"), "w").close()
        for kind in ["start", "stop", "ban", "unban"] + (["check"] if firewall is not firewalls.ROUTE else []):
            for address in [one, other]:
                status, _ = room.sh(lane.mine.of(kind, address), **how)
                want(status != 0, f"{lane.family} {kind} of {address} ended with 0")
        if not room.is_real:
            os.remove(room.path("firewall/refuses"))
        lane.has(one)
        lane.does("stop")


def a_file(room):
    """dummy: its file from start to stop, and where somebody took it away"""
    path = room.path("of/banned")
    commands = room.commands(NAME, f'dummy[file="{path}"]')["inet4"]
    one, longer, other = "192.0.2.7", "192.0.2.70", "2001:db8::7"

    def does(kind, address=""):
        for _ in range(2):
            status, said = room.sh(commands.of(kind, address))
            same(status, 0, f"{kind} ({said})")

    def has(*addresses):
        with open(path, encoding="utf-8") as file:
            same(file.read().splitlines(), list(addresses), "the file")

    same(room.sh(commands.of("check"))[0], 1, "the check before the start")
    does("unban", one)
    does("ban", one)
    same(os.path.exists(path), False, "a file of a ban without a start")
    does("stop")
    does("start")
    # The one's text is in the other's.
    does("ban", longer)
    does("ban", one)
    does("ban", other)
    does("check")
    has(longer, one, other)
    does("unban", one)
    has(longer, other)
    does("unban", longer)
    has(other)
    does("unban", other)
    has()
    does("ban", one)
    does("start")
    has()
    os.remove(path)
    same(room.sh(commands.of("check"))[0], 1, "the check without the file")
    does("unban", one)
    does("stop")
    same(os.listdir(room.path("of")), [], "left")


def boot_id_is_written(room):
    """the start of the machine is written where the service may write, and nothing else is taken for one"""
    environment = {**room.environment, "STATE_DIRECTORY": room.path("state") + ":" + room.path("other")}
    subprocess.run([BOOT_ID], env=environment, check=True)
    with open(room.path("state/boot.local"), encoding="utf-8") as file, open("/proc/sys/kernel/random/boot_id", encoding="utf-8") as kernel:
        same(file.read().splitlines()[1:], ["[Init]", f"boot = {kernel.read().strip()}"], "written")
    for word in ["", "a b", "$(id)", "a\nboot = b"]:
        with open(room.path("boot_id"), "w", encoding="utf-8") as file:
            file.write(word + "\n")
        ended = subprocess.run([BOOT_ID, room.path("none"), room.path("boot_id")], capture_output=True, check=False)
        want(ended.returncode != 0 and not os.path.exists(room.path("none")), f"{word!r} was taken")


def a_table_with_a_number(room, firewall):
    """a table of routes with a number of its own, and other routes"""
    for lane, (one, other) in lanes(room, firewall, "[table=4242, blocktype=unreachable, priority=900]"):
        ip = firewall.filled("ip {minus}", NAME, lane.family)
        lane.does("start")
        lane.does("ban", address=one)
        lane.does("ban", address=other)
        lane.does("unban", address=one)
        lane.check_is(True, "with a ban")
        shown = room.sh(f"{ip} route show table 4242")[1]
        same(addresses(shown) - MARKS, {other}, f"{lane.family} banned")
        want("unreachable" in shown and "900:" in room.sh(f"{ip} rule show")[1], shown)
        lane.does("stop")
        want("900:" not in room.sh(f"{ip} rule show")[1], "the rule is there behind the stop")


# What is tried of each firewall that ships, by its options.
OPTIONS = {
    "nftables": ["[type=allports]", '[port="22,6000:6010", protocol="tcp,udp"]', "[port=22, blocktype=drop, chain_hook=forward, chain_priority=-1]"],
    "iptables-ipset": ["[type=allports]", '[port="22,6000:6010", protocol="tcp,udp"]', "[port=22, blocktype=DROP, chain=FORWARD]"],
    "iptables": ["[type=allports]", '[port="22,6000:6010", protocol="tcp,udp"]', "[port=22, blocktype=DROP, chain=FORWARD]"],
    "route": [],
}


def checks(is_real):
    for firewall in firewalls.ALL:
        for check in [a_lane_goes_through_its_life, a_lane_over_an_empty_firewall, damage_is_seen, a_fault_is_told]:
            yield f"{firewall.action}: {check.__doc__}", lambda room, check=check, firewall=firewall: check(room, firewall)
        for options in OPTIONS[firewall.action]:
            name = f"{firewall.action}{options}: {a_lane_goes_through_its_life.__doc__}"
            yield name, lambda room, firewall=firewall, options=options: a_lane_goes_through_its_life(room, firewall, options)
    for firewall in [firewalls.IPSET, firewalls.IPTABLES]:
        yield f"{firewall.action}: {a_rule_less_is_seen.__doc__}", lambda room, firewall=firewall: a_rule_less_is_seen(room, firewall)
    yield f"route: {a_table_with_a_number.__doc__}", lambda room: a_table_with_a_number(room, firewalls.ROUTE)
    if not is_real:
        for check in [a_file, boot_id_is_written]:
            yield check.__doc__, lambda room, check=check: check(room)
