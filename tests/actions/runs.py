"""Runs of the server whose jails have the actions that ship: bans and their ends, a firewall that somebody empties, a reboot, and mails."""

import contextlib
import os
import re
import socket
import time

import firewalls
from firewalls import FAMILIES
from room import Failed, same, wait_for, want


def jails_of(room):
    """A jail for each firewall, and for the file of dummy."""
    path = room.path("firewall/dummy/banned")
    return {"nft": firewalls.NFTABLES, "set": firewalls.IPSET, "chain": firewalls.IPTABLES, "way": firewalls.ROUTE, "file": firewalls.dummy(path)}


def configure(room, jails, bantime=3600, options="port=22"):
    """Jails with these actions; that of dummy says where its file is."""
    more = {"dummy": f'[file="{room.path("firewall/dummy/banned")}"]'}
    room.configure({name: firewall.action + more.get(firewall.action, f"[{options}]") for name, firewall in jails.items()}, bantime)


def some(count, first=0):
    """So many addresses, half of them of each family."""
    each = range(first, first + count // 2)
    return [f"198.18.{n >> 8}.{n & 255}" for n in each] + [f"2001:db8::1:{n:x}" for n in each]


def all_have(room, wanted, jails):
    return all(firewall.all_banned(room, name) == set(wanted) for name, firewall in jails.items())


def wait_all(room, wanted, what, jails):
    """Waits until each firewall keeps out just these. It looks seldom: to look takes time from what is waited for."""
    seen = []

    def holds():
        seen[:] = [firewall.all_banned(room, name) for name, firewall in jails.items()]
        time.sleep(0.2)
        return seen == [set(wanted)] * len(seen)

    wait_for(holds, what, lambda: (len(room.said()), [len(each) for each in seen]))


def is_quiet(room):
    """No command failed, and none wrote anything."""
    same(room.said_faults(), [], "faults")
    same(room.errors(), "", "what commands wrote")


def begun(room, count):
    """A server that runs with so many bans, which stand in all firewalls: its jails, by their names."""
    jails = jails_of(room)
    configure(room, jails)
    room.start()
    room.says("INFO Server ready")
    room.fail(some(count))
    wait_all(room, some(count), "bans", jails)
    return jails


def bans_and_their_ends(room, count):
    """each address of a ban is in the firewall, and with the end of its ban it is gone"""
    jails = jails_of(room)
    for bantime in [6, 24, 96]:
        configure(room, jails, bantime)
        room.start()
        room.says("INFO Server ready", room.said().count("INFO Server ready") + 1)
        before = sum(" Unban " in line for line in room.said())
        room.fail(some(count))
        end, saw = time.monotonic() + bantime, False
        while time.monotonic() < end and not saw:
            saw = all_have(room, some(count), jails)
        wait_for(lambda: sum(" Unban " in line for line in room.said()) == before + count * len(jails), "ends of bans", lambda: len(room.said()))
        wait_all(room, [], "empty firewalls", jails)
        room.kill()
        is_quiet(room)
        if saw:
            return f"{count} in each of {len(jails)} firewalls"
    raise Failed("bans were never seen in all firewalls")


def emptied_by_others(room, count):
    """where somebody empties the firewall the next ban brings all back"""
    jails = begun(room, count)
    is_quiet(room)
    for name, firewall in jails.items():
        for family in FAMILIES[: firewall.lanes]:
            command = firewall.filled(firewall.damages[0], name, family)
            status, said = room.sh(command)
            same(status, 0, f"{command} ({said})")
    room.fail(some(2, first=count))
    wait_all(room, some(count) + some(2, first=count), "all of them once more", jails)
    for name, firewall in jails.items():
        same(room.said().count(f"INFO [{name}/{firewall.action}] restart"), firewall.lanes, f"restarts of {name}")
    same({line.split("] ")[1] for line in room.said_faults()}, {"check failed: status 1"}, "faults")
    return f"{count + 2} in each of {len(jails)} firewalls"


def a_reboot(room, count, jails):
    """after a reboot the first start brings all bans back"""
    configure(room, jails)
    room.boots("0a-1")
    room.start()
    room.says("INFO Server ready")
    room.fail(some(count))
    wait_all(room, some(count), "bans", jails)
    room.kill()
    room.empty_firewall()
    room.boots("0a-2")
    began = time.monotonic()
    room.start()
    wait_all(room, some(count), "all of them behind the reboot", jails)
    took = time.monotonic() - began
    is_quiet(room)
    # The same start of the machine: the next server runs no command, and takes nothing away.
    room.kill()
    room.boots("0a-2")
    room.start()
    room.says("INFO Server ready", 3)
    same(all_have(room, some(count), jails), True, "bans behind another start")
    is_quiet(room)
    return f"{count} in each of {len(jails)} firewalls, in {took:.1f} s"


def a_reboot_with_bans_that_wait(room, count):
    """after a reboot that came while bans waited behind commands that hang the first start makes all of them, and gives none up"""
    jails = {name: firewall for name, firewall in jails_of(room).items() if name != "file"}
    # A command that hangs is not to be ended before the machine is.
    configure(room, jails, options="port=22, timeout=1h")
    room.boots("0a-1")
    room.start(apart=True)
    room.says("INFO Server ready")
    room.fail(some(count))
    wait_all(room, some(count), "bans", jails)
    hangs = room.path("firewall/hangs")
    open(hangs, "w").close()
    room.fail(some(count, first=count))
    for name in jails:
        room.says(f"NOTICE [{name}] Ban {some(count, first=count)[-1]}")
    room.kill_all()
    room.empty_firewall()
    room.boots("0a-2")
    is_quiet(room)
    room.start()
    wait_all(room, some(count) + some(count, first=count), "all of them behind the reboot", jails)
    is_quiet(room)
    return f"{count} that stood and {count} that waited, in each of {len(jails)} firewalls"


def a_stop_that_is_asked_for(room, count):
    """the client's stop lets in whoever is banned, leaves nothing in the firewall, and the server ends with 0"""
    jails = begun(room, count)
    same(room.ask("stop"), (0, "Shutdown begun\n"), "the reply to the stop")
    wait_for(room.has_ended, "the server's end", lambda: len(room.said()))
    same(room.runs.wait(), 0, "the server's status")
    for name, firewall in jails.items():
        same(firewall.traces_of(room, name), [], f"{name}: there behind the stop")
    same(os.path.exists(room.path("firewall/dummy/banned")), False, "the file of dummy is there")
    is_quiet(room)
    return f"{count} in each of {len(jails)} firewalls"


# What a client may write, of which no shell, mail or tag may make anything.
HOSTILE = [
    "'; touch {place}/PWNED; '",
    "$(touch {place}/PWNED) `touch {place}/PWNED` \" \\",
    ".",
    "<ip> <matches> <name> %s \\n \\0",
    "\r\nBcc: x@example.org \x01 \u00e9",
]


def mails(room):
    """the mail of a ban has the lines of its failures, and nothing that a client wrote does more"""
    lines = "maxretry = %d\nfailregex = ^ fail of <ADDR>\n" % len(HOSTILE)
    room.configure({"web": 'mail[dest="ops@example.org, root", sender="f2b@example.org"]'}, bantime=600, more=lines)
    room.start()
    room.says("INFO Server ready")
    for words in HOSTILE:
        room.fail(["192.0.2.7"], " " + words.format(place=room.place))
    room.says("NOTICE [web] Ban 192.0.2.7")
    folder = room.path("firewall/mail")
    wait_for(lambda: [name for name in os.listdir(folder) if name[0] != "."], "a mail")
    names = os.listdir(folder)
    same(len(names), 1, "mails")
    with open(os.path.join(folder, names[0]), encoding="ascii") as file:
        mail = file.read()
    same(os.path.exists(room.path("PWNED")), False, "a client's command was run")
    command, *head = mail.split("\n\n")[0].split("\n")
    same(command, "sendmail -t -i -f f2b@example.org", "the command")
    same(head[:2], ["From: fail2ban <f2b@example.org>", "To: ops@example.org, root"], "headers")
    same(head[2:], [f"Subject: [fail2ban] web bans 192.0.2.7 on {os.uname().nodename}"], "the subject")
    text = mail.split("\n\n", 1)[1]
    want(f"The jail web bans 192.0.2.7, which failed {len(HOSTILE)} times, for 600 seconds" in text, text)
    shown = text.split("What it failed with:\n")[1].splitlines()
    same(len(shown), len(HOSTILE), f"lines in {text!r}")
    safe = re.compile(r"\d+ fail of 192\.0\.2\.7[A-Za-z0-9 ._:,=@/+-]*")
    same([line for line in shown if not safe.fullmatch(line)], [], "lines that are not safe")
    is_quiet(room)


def a_mail_beside_a_firewall(room):
    """a jail that ships bans and writes a mail with action = %(action_mail)s"""
    people = "destemail = ops@example.org\nsender = f2b@example.org\n"
    room.configure({}, more=f"[sshd]\nenabled = true\nlogpath = {room.log}\nmaxretry = 2\naction = %(action_mail)s\n{people}")
    room.start()
    room.says("INFO Server ready")
    now = time.strftime("%b %e %H:%M:%S", time.gmtime())
    with open(room.log, "a", encoding="utf-8") as log:
        for user in ["root", "x'; id"]:
            log.write(f"{now} host sshd[77]: Failed password for {user} from 198.51.100.7 port 4022 ssh2\n")
    wait_all(room, ["198.51.100.7"], "a ban", {"sshd": firewalls.NFTABLES})
    folder = room.path("firewall/mail")
    wait_for(lambda: [name for name in os.listdir(folder) if name[0] != "."], "a mail")
    [name] = [name for name in os.listdir(folder) if name[0] != "."]
    with open(os.path.join(folder, name), encoding="ascii") as file:
        head = file.read().splitlines()[:3]
    same(head, ["sendmail -t -i -f f2b@example.org", "From: fail2ban <f2b@example.org>", "To: ops@example.org"], "whose the mail is, and who gets it")
    is_quiet(room)


# Addresses of the machine itself, in the network's namespace of the check: who is banned, who is not, and where both connect to.
PEOPLE = {"inet4": ["198.18.9.1", "198.18.9.2", "198.18.9.3"], "inet6": ["2001:db8:9::1", "2001:db8:9::2", "2001:db8:9::3"]}
PORTS = [22, 23]


def comes_in(source, to, port):
    """Whether a connection from one address to another comes about."""
    with contextlib.suppress(OSError):
        with socket.create_connection((to, port), timeout=10, source_address=(source, 0)):
            return True
    return False


def packets(room):
    """what a banned address sends is kept out, and nothing else"""
    rows = [(firewall, options) for firewall in [firewalls.NFTABLES, firewalls.IPSET, firewalls.IPTABLES] for options in ["port=22", "type=allports"]]
    with contextlib.ExitStack() as open_ones:
        same(room.sh("ip link set lo up")[0], 0, "lo is up")
        for family, people in PEOPLE.items():
            for address in people:
                long = "/32" if family == "inet4" else "/128 nodad"
                same(room.sh(f"ip address replace {address}{long} dev lo")[0], 0, f"{address} on lo")
            for port in PORTS:
                kind = socket.AF_INET if family == "inet4" else socket.AF_INET6
                open_ones.enter_context(socket.create_server((people[2], port), family=kind, backlog=1000))
        for firewall, options in rows:
            commands = room.commands("web", f"{firewall.action}[{options}]")
            for family, (banned, other, to) in PEOPLE.items():
                does = {kind: commands[family].of(kind, banned) for kind in commands[family].texts}
                saw = []
                for kind in ["start", "ban", "unban", "stop"]:
                    same(room.sh(does[kind])[0], 0, f"{firewall.action} {kind}")
                    saw.append([comes_in(source, to, port) for source in [banned, other] for port in PORTS])
                whole, kept_out = [True] * 4, [False, options != "type=allports", True, True]
                same(saw, [whole, kept_out, whole, whole], f"{firewall.action}[{options}] {family}: who comes in behind start, ban, unban and stop")
    return f"{len(rows)} actions, both families"


def answers(room):
    """nothing is sent to a banned address of the action route"""
    for family, (banned, other) in {"inet4": ["203.0.113.1", "203.0.113.2"], "inet6": ["2001:db8:a::1", "2001:db8:a::2"]}.items():
        commands = room.commands("web", "route")[family]
        ip = firewalls.ROUTE.filled("ip {minus}", "web", family)
        same(room.sh(f"ip link set lo up; {ip} route replace default dev lo")[0], 0, "a route for all")
        saw = []
        for kind in ["start", "ban", "unban", "stop"]:
            same(room.sh(commands.of(kind, banned))[0], 0, f"route {kind}")
            saw.append([room.sh(f"{ip} route get {address}")[0] == 0 for address in [banned, other]])
        same(saw, [[True, True], [False, True], [True, True], [True, True]], f"{family}: who is sent to behind start, ban, unban and stop")


# How many a firewall has to get back behind a reboot.
MANY = int(os.environ.get("BANS", "0"))


def checks(is_real):
    count = 100 if is_real else 10
    many = MANY or (1000 if is_real else 300)
    for check in [bans_and_their_ends, emptied_by_others, a_stop_that_is_asked_for]:
        yield check.__doc__, lambda room, check=check: check(room, count)
    yield a_reboot.__doc__, lambda room: a_reboot(room, count, jails_of(room))
    yield f"{a_reboot.__doc__}, of many", lambda room: a_reboot(room, many, {"nft": firewalls.NFTABLES})
    if not is_real:
        # What is to hang has to be a stand-in.
        yield a_reboot_with_bans_that_wait.__doc__, lambda room: a_reboot_with_bans_that_wait(room, count)
    for check in [packets, answers] if is_real else [mails, a_mail_beside_a_firewall]:
        yield check.__doc__, check
