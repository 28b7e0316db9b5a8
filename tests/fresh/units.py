"""What the units say, the scripts of the package, and what the installer asks of systemd: by their texts, and with a stand-in of systemctl."""

import os
import re

from root import PATH, TOP, run, same, want
from service import items

# The places of the journal of systemd as a file: its unit writes it, logrotate rotates it, and the configuration reads it.
LINES = "/var/log/fail2ban-journal.log"

# What has to stand in fail2ban.service, item by item: all values that it has, in their order.
SERVICE = {
    "After": [
        "network.target time-set.target time-sync.target fail2ban-journal.service",
        "nftables.service iptables.service ip6tables.service ipset.service firewalld.service",
    ],
    "PartOf": ["nftables.service iptables.service ip6tables.service ipset.service firewalld.service"],
    "Wants": ["fail2ban-zone.timer"],
    "Type": ["exec"],
    "StateDirectory": ["fail2ban"],
    "StateDirectoryMode": ["0700"],
    "RuntimeDirectory": ["fail2ban"],
    "RuntimeDirectoryPreserve": ["restart"],
    "ExecStartPre": [
        "/usr/lib/fail2ban/boot-id",
        "/usr/lib/fail2ban/zone",
        "/bin/ln -sfn /var/lib/fail2ban/fail2ban.sock /run/fail2ban/fail2ban.sock",
    ],
    "ExecStart": ["/usr/bin/fail2ban-server --conf /etc/fail2ban --journal-limit 268435456"],
    "ExecReload": ["/usr/lib/fail2ban/zone", "/usr/bin/fail2ban-client reload"],
    "ExecStop": ["-/usr/lib/fail2ban/stop $MAINPID"],
    "Restart": ["on-failure"],
    "RestartSec": ["3"],
    "CapabilityBoundingSet": ["CAP_NET_ADMIN CAP_NET_RAW CAP_DAC_READ_SEARCH"],
    "RestrictAddressFamilies": ["AF_UNIX AF_NETLINK AF_INET AF_INET6"],
    "SystemCallFilter": ["@system-service"],
    "SystemCallErrorNumber": ["EPERM"],
    "ProtectSystem": ["full"],
    "ProtectHome": ["read-only"],
    "PrivateTmp": ["yes"],
    "PrivateDevices": ["yes"],
    "ProtectKernelTunables": ["yes"],
    "ProtectKernelLogs": ["yes"],
    "ProtectControlGroups": ["yes"],
    "ProtectClock": ["yes"],
    "ProtectHostname": ["yes"],
    "RestrictNamespaces": ["yes"],
    "RestrictRealtime": ["yes"],
    "RestrictSUIDSGID": ["yes"],
    "LockPersonality": ["yes"],
    "SystemCallArchitectures": ["native"],
    "SyslogIdentifier": ["fail2ban-server"],
    "WantedBy": ["multi-user.target"],
}

# What is looked at by itself, or tells people alone.
APART = ["Description", "Documentation", "TimeoutStopSec", "RestartPreventExitStatus"]

# The statuses behind which another start would end so too, and those behind which it is tried: the disk, the socket, the output, the memory, or files that
# are being written.
NOT_AGAIN = ["2", "4", "6", "7", "10", "11", "12"]
AGAIN = ["3", "5", "8", "9", "71"]


def text_of(name):
    with open(os.path.join(TOP, name), encoding="utf-8") as file:
        return file.read()


def values(unit):
    """All values of each item of a unit, in their order."""
    found = {}
    for name, value in items(text_of(f"service/{unit}")):
        found.setdefault(name, []).append(value)
    return found


def service_has_its_items(root):
    """the service's unit has what the page on it tells: its commands, its places, its protection, and behind which statuses it is started again"""
    found = values("fail2ban.service")
    same({name: found.get(name) for name in SERVICE}, SERVICE, "fail2ban.service")
    # One more would take something from commands: NoNewPrivileges the group of a program of a mail's, and PrivateNetwork the firewall itself.
    same(sorted(set(found) - set(SERVICE)), sorted(APART), "items that fail2ban.service has beside these")
    same(found["RestartPreventExitStatus"], [" ".join(NOT_AGAIN)], "statuses behind which nothing is started")
    said, _ = run(root.programs["server"], "--help")
    statuses = re.findall(r"^ +(\d+)  ", said[said.index("Exit status:") :], re.MULTILINE)
    same(sorted([*NOT_AGAIN, *AGAIN, "0"], key=int), statuses, "statuses that --help lists")
    # The state stands where the configuration has the socket, and the link where the client looks.
    [socket] = re.findall(r"^socket = (.*)$", text_of("conf/fail2ban.conf"), re.MULTILINE)
    same(socket, "/var/lib/fail2ban/fail2ban.sock", "the socket")
    said, _ = run(root.programs["client"], "--help")
    want("/var/run/fail2ban/fail2ban.sock" in said, said)


def timer_looks_in_time(_root):
    """the timer looks a second behind each quarter of an hour, and goes with the service"""
    found = values("fail2ban-zone.timer")
    wanted = {"OnCalendar": ["*:00,15,30,45:01"], "OnTimezoneChange": ["yes"], "AccuracySec": ["1s"], "PartOf": ["fail2ban.service"]}
    same({name: found.get(name) for name in wanted}, wanted, "fail2ban-zone.timer")


def lines_stand_in_one_place(_root):
    """the unit that writes systemd's journal to a file, logrotate, the configuration and the package name the same file"""
    unit = values("fail2ban-journal.service")
    same(unit["StandardOutput"], [f"append:{LINES}"], "the unit")
    # Those of mail, of daemons, and of logins by both their names.
    facilities = " ".join(f"SYSLOG_FACILITY={number}" for number in [2, 3, 4, 10])
    same(unit["ExecStart"], [f"/bin/journalctl --follow --lines=0 --output=short-iso {facilities}"], "what it takes")
    same(unit["Before"], ["fail2ban.service"], "when it starts")
    same(re.findall(r"^(/\S+) (/\S+) \{$", text_of("service/fail2ban.logrotate"), re.MULTILINE), [(LINES, "/var/log/fail2ban.log")], "logrotate")
    # What is written to its end is emptied in place, and most machines have only one of the two files, or none.
    how = re.findall(r"^    (.*)$", text_of("service/fail2ban.logrotate"), re.MULTILINE)
    same(how, ["daily", "maxsize 100M", "rotate 7", "missingok", "notifempty", "compress", "delaycompress", "copytruncate"], "how it rotates")
    same(set(re.findall(r"^\w+_log = (.*)$", text_of("conf/paths-journal.conf"), re.MULTILINE)), {LINES}, "paths-journal.conf")
    want(f"rm -f {LINES}*" in text_of("service/deb"), "the package")
    # What the service says stands in the other file, where somebody sends it there: recidive reads it.
    want("logpath = /var/log/fail2ban.log\n" in text_of("conf/jail.conf"), "recidive")


# A systemctl that notes its words.
SYSTEMCTL = 'echo "$*" >>%s\n'


def scripts_of_the_package(root):
    """the package's scripts ask systemd for what they have to, where it runs, and what is purged is what the server kept, and nothing of /etc"""
    root.furnish()
    root.stand_in("/usr/bin/systemctl", SYSTEMCTL % "/asked")
    scripts = dict(re.findall(r'^cat >"\$root/DEBIAN/(\w+)" <<\'END\'\n(.*?)^END$', text_of("service/deb"), re.DOTALL | re.MULTILINE))
    for name, text in scripts.items():
        root.write(f"/{name}", text)
    both = "fail2ban.service fail2ban-journal.service"
    rows = [
        ("postinst configure", "daemon-reload"),
        ("postinst configure 0.0.9", f"daemon-reload\ntry-restart {both}"),
        ("postinst abort-remove", "daemon-reload"),
        ("prerm upgrade 0.2.0", ""),
        ("prerm remove", f"disable --now {both}"),
        ("postrm remove", "daemon-reload"),
        ("postrm purge", "daemon-reload"),
    ]
    same({words.split()[0] for words, _ in rows}, set(scripts), "scripts")
    kept = ["/var/lib/fail2ban/journal.0", f"{LINES}", f"{LINES}.1.gz"]
    own = ["/etc/fail2ban/jail.local", "/etc/fail2ban/jail.conf", "/etc/logrotate.d/fail2ban", "/var/log/auth.log", "/var/lib/other"]
    for is_there in [False, True]:
        for path in [*kept, *own]:
            root.write(path, "")
        if is_there:
            os.makedirs(root.at("/run/systemd/system"))
        for words, wanted in rows:
            name, *more = words.split()
            root.run("/bin/sh", f"/{name}", *more, environment={"PATH": PATH})
            asked = root.read("/asked").strip() if os.path.exists(root.at("/asked")) else ""
            same(asked, wanted if is_there else "", words)
            root.write("/asked", "")
            left = [path for path in [*kept, *own] if os.path.exists(root.at(path))]
            same(left, own if words == "postrm purge" else [*kept, *own], f"left behind {words}")
    want(not os.path.exists(root.at("/var/lib/fail2ban")), "a folder is left")


# A command over a /run of its own, on which systemd runs.
WITH_SYSTEMD = "mount -t tmpfs none /run && mkdir -p /run/systemd/system && exec \"$@\""


def installer_asks_this_machine_alone(root):
    """make install has this machine's systemd read its units again, and with DESTDIR asks nothing of it"""
    root.furnish()
    root.stand_in("/stand-in/systemctl", SYSTEMCTL % root.at("/asked"))
    environment = {**os.environ, "PATH": root.at("/stand-in") + ":" + os.environ["PATH"]}
    own = [] if os.geteuid() == 0 else ["--user", "--map-root-user"]
    with_systemd = ["unshare", *own, "--mount", "/bin/sh", "-c", WITH_SYSTEMD, "sh"]
    here = [f"PREFIX={root.place}/usr", f"CONFDIR={root.place}/etc/fail2ban", f"ROTATEDIR={root.place}/etc/logrotate.d"]
    for words, asked in [([f"DESTDIR={root.place}/other"], None), (here, "daemon-reload\n")]:
        for target in ["install", "uninstall"]:
            run(*with_systemd, "make", target, "CHECKED=yes", *words, env=environment)
            saw = root.read("/asked") if os.path.exists(root.at("/asked")) else None
            same(saw, asked, f"what make {target} {words[0]} asked for")
            if asked:
                os.remove(root.at("/asked"))


def programs_are_the_same(_root):
    """what ./build proves, what make installs and what the package compares are the same programs"""
    [built] = re.findall(r"^programs='(.*)'$", text_of("build"), re.MULTILINE)
    [installed] = re.findall(r"^PROGRAMS = (.*)$", text_of("Makefile"), re.MULTILINE)
    same(set(built.split()), {f"fail2ban_{name}" for name in installed.split()}, "programs")
    [compared] = re.findall(r"^for program in (server .*); do$", text_of("service/deb"), re.MULTILINE)
    same(set(compared.split()), set(installed.split()), "programs of the package")


CHECKS = [
    service_has_its_items,
    timer_looks_in_time,
    lines_stand_in_one_place,
    scripts_of_the_package,
    installer_asks_this_machine_alone,
    programs_are_the_same,
]
