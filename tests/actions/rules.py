"""The rules that the actions make, word by word as the stand-ins keep them: what they compare, where they stand, and what they do with a packet."""

import re

from firewalls import FAMILIES
from room import same, table_of, wait_for

NAME = "web"
BANNED = {"inet4": "192.0.2.7", "inet6": "2001:db8::7"}
# Somebody's rule, which stands there before, and lets a banned address in.
FOREIGN = "-p tcp -j ACCEPT"

# An action with its options, and for each thing that shows rules what it has to show behind a start and a ban. {ip} is ip or ip6, {six} nothing or 6, {address}
# who is banned, and {mark} what is in the table of routes for the check.
INPUT, FORWARD, CHAIN = "{ip}tables -S INPUT", "{ip}tables -S FORWARD", "{ip}tables -S f2b-web"
NFT_INPUT, NFT_FORWARD = "nft list chain {ip} f2b-web input", "nft list chain {ip} f2b-web forward"
ROUTES, WAYS = "ip {minus} route show table {table}", "ip {minus} rule show"
AT_INPUT = "type filter hook input priority filter - 1;"
SET_RULE = "-m set --match-set f2b-web{six} src -j"
ROWS = [
    ("nftables", {NFT_INPUT: [AT_INPUT, "meta l4proto { tcp } th dport { 0-65535 } {ip} saddr @banned reject"]}),
    ("nftables[type=allports]", {NFT_INPUT: [AT_INPUT, "{ip} saddr @banned reject"]}),
    (
        'nftables[port="22,6000:6010", protocol="tcp,udp"]',
        {NFT_INPUT: [AT_INPUT, "meta l4proto { tcp,udp } th dport { 22,6000-6010 } {ip} saddr @banned reject"]},
    ),
    (
        "nftables[port=22, blocktype=drop, chain_hook=forward, chain_priority=-1]",
        {NFT_FORWARD: ["type filter hook forward priority -1;", "meta l4proto { tcp } th dport { 22 } {ip} saddr @banned drop"]},
    ),
    ("iptables-ipset", {INPUT: [f"-p tcp -m multiport --dports 0:65535 {SET_RULE} REJECT", FOREIGN]}),
    ("iptables-ipset[type=allports]", {INPUT: [f"-p all {SET_RULE} REJECT", FOREIGN]}),
    (
        'iptables-ipset[port="22,6000:6010", protocol="tcp,udp"]',
        {INPUT: [f"-p {protocol} -m multiport --dports 22,6000:6010 {SET_RULE} REJECT" for protocol in ["udp", "tcp"]] + [FOREIGN]},
    ),
    (
        "iptables-ipset[port=22, blocktype=DROP, chain=FORWARD]",
        {INPUT: [FOREIGN], FORWARD: [f"-p tcp -m multiport --dports 22 {SET_RULE} DROP", FOREIGN]},
    ),
    ("iptables", {INPUT: ["-p tcp -m multiport --dports 0:65535 -j f2b-web", FOREIGN], CHAIN: ["-s {address} -j REJECT", "-j RETURN"]}),
    ("iptables[type=allports]", {INPUT: ["-p all -j f2b-web", FOREIGN], CHAIN: ["-s {address} -j REJECT", "-j RETURN"]}),
    (
        'iptables[port="22,6000:6010", protocol="tcp,udp"]',
        {INPUT: [f"-p {protocol} -m multiport --dports 22,6000:6010 -j f2b-web" for protocol in ["udp", "tcp"]] + [FOREIGN]},
    ),
    (
        "iptables[port=22, blocktype=DROP, chain=FORWARD]",
        {INPUT: [FOREIGN], FORWARD: ["-p tcp -m multiport --dports 22 -j f2b-web", FOREIGN], CHAIN: ["-s {address} -j DROP", "-j RETURN"]},
    ),
    ("route", {ROUTES: ["blackhole {address}", "blackhole {mark}"], WAYS: ["1000:\tfrom all lookup {table}"]}),
    ("route[blocktype=unreachable]", {ROUTES: ["unreachable {address}", "unreachable {mark}"]}),
    ("route[blocktype=prohibit, priority=900]", {ROUTES: ["prohibit {address}", "prohibit {mark}"], WAYS: ["900:\tfrom all lookup {table}"]}),
]


def filled(text, family):
    """A text of the table for a family. Other braces are nft's."""
    words = {"inet4": ("ip", "", "-4", "255.255.255.255"), "inet6": ("ip6", "6", "-6", "ff00::")}[family]
    values = dict(zip(["ip", "six", "minus", "mark"], words), address=BANNED[family], table=str(table_of(NAME)))
    for name, value in values.items():
        text = text.replace("{" + name + "}", value)
    return text


def rules_are(room, action, wanted):
    """each rule stands there word by word, in front of somebody's that lets all in"""
    commands = room.commands(NAME, action)
    for family in FAMILIES:
        room.empty_firewall()
        for chain in ["INPUT", "FORWARD"]:
            same(room.sh(filled(f"{{ip}}tables -A {chain} {FOREIGN}", family))[0], 0, "a rule of somebody's")
        for kind in ["start", "ban"]:
            status, said = room.sh(commands[family].of(kind, BANNED[family]))
            same(status, 0, f"{family} {kind} ({said})")
        for command, lines in wanted.items():
            status, shown = room.sh(filled(command, family))
            # The order of routes means nothing.
            order = sorted if command == ROUTES else list
            saw = order(line.strip().removeprefix("-A INPUT ").removeprefix("-A FORWARD ").removeprefix("-A f2b-web ") for line in shown.splitlines())
            same((status, saw), (0, order(filled(line, family) for line in lines)), f"{family} {filled(command, family)}")


# From which ports the jails that ship keep out, and of which protocols.
PORTS = """\
sshd 22 tcp
postfix 25,465,587 tcp
postfix-sasl 25,465,587 tcp
dovecot 110,143,465,587,993,995,4190 tcp
exim 25,465,587 tcp
nginx-http-auth 80,443 tcp,udp
nginx-limit-req 80,443 tcp,udp
nginx-botsearch 80,443 tcp,udp
apache-auth 80,443 tcp
apache-badbots 80,443 tcp
haproxy-http-auth 80,443 tcp,udp
vsftpd 20,21,989,990 tcp
proftpd 20,21,989,990 tcp
pure-ftpd 20,21,989,990 tcp
named-refused 53,853,953 tcp,udp
mysqld-auth 3306 tcp
mariadb-auth 3306 tcp
asterisk 5038,5060,5061 tcp,udp
recidive all all
"""


# Which logs the jails that ship follow, by the names that each of the paths-*.conf gives them.
LOGS = """\
sshd %(auth_log)s
postfix %(mail_log)s
postfix-sasl %(mail_log)s
dovecot %(mail_log)s
exim %(exim_log)s
nginx-http-auth %(nginx_access_log)s
nginx-limit-req %(nginx_access_log)s
nginx-botsearch %(nginx_access_log)s
apache-auth %(apache_error_log)s
apache-badbots %(apache_access_log)s
haproxy-http-auth %(haproxy_log)s
vsftpd %(vsftpd_log)s
proftpd %(proftpd_log)s
pure-ftpd %(pureftpd_log)s
named-refused %(named_log)s
mysqld-auth %(mysqld_log)s
mariadb-auth %(mariadb_log)s
asterisk %(asterisk_log)s
recidive /var/log/fail2ban.log
"""


def logs_of_the_jails(room):
    """each jail that ships follows the log of its service"""
    with open(room.path("conf/jail.conf"), encoding="utf-8") as file:
        saw = re.findall(r"^\[([a-z-]+)\]\n(?:[^\[\n].*\n|\n)*?logpath = (.*)$", file.read(), re.MULTILINE)
    same([" ".join(row) for row in saw], LOGS.splitlines(), "logs")


def ports_of_the_jails(room):
    """each jail that ships keeps out from the ports of its service"""
    rows = [line.split(" ") for line in PORTS.splitlines()]
    room.configure({}, more="".join(f"[{jail}]\nenabled = true\nlogpath = {room.log}\n" for jail, _, _ in rows))
    room.start()
    room.says("INFO Server ready")
    for jail, ports, protocol in rows:
        rule = "ip saddr @banned reject" if ports == "all" else f"meta l4proto {{ {protocol} }} th dport {{ {ports} }} ip saddr @banned reject"
        command = f"nft list chain ip f2b-{jail} input"
        # The stand-in makes a chain before its rule.
        wait_for(lambda command=command: len(room.sh(command, quiet=True)[1].splitlines()) > 1, command, lambda: len(room.said()))
        same([line.strip() for line in room.sh(command)[1].splitlines()], [AT_INPUT, rule], f"the rule of {jail}")
    same(room.said_faults(), [], "faults")
    with open(room.path("conf/jail.conf"), encoding="utf-8") as file:
        shipped = re.findall(r"^\[([a-z-]+)\]", file.read(), re.MULTILINE)
    same([jail for jail, _, _ in rows], shipped, "jails that ship")
    return f"{len(rows)} jails"


def checks(is_real):
    if is_real:
        return
    for action, wanted in ROWS:
        yield f"{action}: {rules_are.__doc__}", lambda room, action=action, wanted=wanted: rules_are(room, action, wanted)
    yield logs_of_the_jails.__doc__, logs_of_the_jails
    yield ports_of_the_jails.__doc__, ports_of_the_jails
