"""The actions that keep out: how it is seen who is kept out, as docs/actions.md tells it, and what others may do to it."""

import ipaddress
import re
from dataclasses import dataclass

from room import table_of, want

FAMILIES = ["inet4", "inet6"]
MARKS = {"255.255.255.255", "ff00::"}


@dataclass
class Firewall:
    action: str
    # What shows who is banned, for each family.
    shows: list
    # What others may do, after which the action's check has to fail; for each family.
    damages: list
    # What shows whether anything of the jail is there.
    traces: list
    lanes: int = 2

    def filled(self, command, name, family):
        """A command for a jail and a family. iptables has `ip` in its name, as nft's families have."""
        version = {"inet4": {"ip": "ip", "six": "", "minus": "-4"}, "inet6": {"ip": "ip6", "six": "6", "minus": "-6"}}[family]
        return command.format(name=name, table=table_of(name), **version)

    def banned(self, room, name, family):
        """Whom the firewall keeps out, for a jail and a family."""
        status, shown = room.sh(self.filled(self.shows[FAMILIES.index(family)], name, family))
        return addresses(shown) - MARKS if status == 0 else {f"status {status}: {shown}"}

    def all_banned(self, room, name):
        return self.banned(room, name, "inet4") | self.banned(room, name, "inet6")

    def traces_of(self, room, name):
        """What is there of a jail: lines that name it."""
        found = []
        for command in self.traces:
            status, shown = room.sh(command)
            want(status == 0, f"{command}: {shown}")
            found += [line for line in shown.splitlines() if f"f2b-{name}" in line or str(table_of(name)) in line]
        return found


def addresses(shown):
    """The addresses among the words of a text."""
    found = set()
    for word in re.split(r"[\s,{}]+", shown):
        try:
            found.add(str(ipaddress.ip_address(re.sub("/(32|128)$", "", word))))
        except ValueError:
            pass
    return found


NFTABLES = Firewall(
    "nftables",
    ["nft list set ip f2b-{name} banned", "nft list set ip6 f2b-{name} banned"],
    [
        "nft flush ruleset",
        "nft delete table {ip} f2b-{name}",
        "nft flush set {ip} f2b-{name} banned",
        "nft flush chain {ip} f2b-{name} input",
    ],
    ["nft list tables"],
)
IPSET = Firewall(
    "iptables-ipset",
    ["ipset list f2b-{name}", "ipset list f2b-{name}6"],
    ["ipset flush", "ipset flush f2b-{name}{six}", "{ip}tables -w -F INPUT", "{ip}tables -w -F && ipset destroy f2b-{name}{six}"],
    ["ipset list -n", "iptables -w -S", "ip6tables -w -S"],
)
IPTABLES = Firewall(
    "iptables",
    ["iptables -w -S f2b-{name}", "ip6tables -w -S f2b-{name}"],
    ["{ip}tables -w -F", "{ip}tables -w -F INPUT", "{ip}tables -w -F f2b-{name}", "{ip}tables -w -F && {ip}tables -w -X f2b-{name}"],
    ["iptables -w -S", "ip6tables -w -S"],
)
ROUTE = Firewall(
    "route",
    ["ip -4 route show table {table}", "ip -6 route show table {table}"],
    ["ip {minus} route flush table {table}", "ip {minus} rule del priority 1000 lookup {table}"],
    ["ip -4 rule show", "ip -6 rule show"],
)
ALL = [NFTABLES, IPSET, IPTABLES, ROUTE]


def dummy(path):
    """The file of the action dummy, as a firewall."""
    return Firewall("dummy", [f"sed -n '/:/!p' '{path}'", f"sed -n '/:/p' '{path}'"], [f"rm -f '{path}'"], [], 1)
