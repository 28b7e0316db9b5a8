"""What the units run, in a root of its own: the server over the configuration that ships, with the action dummy."""

import contextlib
import os
import re
import time

from root import PATH, TOP, same, wait_for, want

UNITS = "/usr/lib/systemd/system"
# Five and a half hours east of UTC, without summer time, in the words of the C library.
ZONE, OFFSET, SECONDS = "IST-5:30", "+0530", 19_800
# Five hours west of it: what is dated so is too old to count in the other zone.
OTHER_ZONE, OTHER_OFFSET, OTHER_SECONDS = "EST5", "-0500", -18_000

LOCAL = """\
[DEFAULT]
banaction = dummy
banaction_allports = dummy

[postfix-sasl]
enabled = true

[nginx-http-auth]
enabled = true
"""

# An action's stop that takes as long as somebody wants it to.
SLOW_STOP = """\
[Definition]
actionstop = while [ ! -e /run/let-stop ]; do sleep 0.1; done
    rm -f '<file>'
"""

# When and for how long the jails that ship ban, as the client says it.
LIMITS = {"maxretry": "5\n", "findtime": "600\n", "bantime": "600\n"}

# A log, and a failure in it, for each of three filters.
JAILS = {
    "sshd": ("/var/log/auth.log", "%b %e %T", "{date} host sshd[77]: Failed password for root from {address} port 4022 ssh2\n"),
    "postfix-sasl": ("/var/log/mail.log", "%b %e %T", "{date} mx postfix/smtpd[78]: warning: unknown[{address}]: SASL LOGIN authentication failed: UGFz\n"),
    "nginx-http-auth": ("/var/log/nginx/access.log", "%d/%b/%Y:%T " + OFFSET, '{address} - ann [{date}] "GET /private/ HTTP/1.1" 401 179 "-" "curl"\n'),
}


def items(text):
    """The items of a unit, in their order: a name may come again."""
    return [tuple(line.split("=", 1)) for line in text.splitlines() if "=" in line and not line.startswith("#")]


class Service:
    """A service as systemd runs it: the commands of its unit, in its directories, in the machine's zone."""

    def __init__(self, root):
        self.root = root
        self.items = items(root.read(f"{UNITS}/fail2ban.service"))
        self.environment = {"PATH": PATH, "TZ": ZONE, "STATE_DIRECTORY": "/var/lib/fail2ban", "RUNTIME_DIRECTORY": "/run/fail2ban"}
        # So many seconds dates without a zone are ahead of UTC.
        self.ahead = SECONDS
        self.server = None

    def commands(self, name):
        """The commands of an item, and whether each may fail."""
        return [(command.removeprefix("-").split(), command.startswith("-")) for item, command in self.items if item == name]

    def start(self):
        """What a start does, until the server is ready."""
        for place, mode in [("/var/lib/fail2ban", 0o700), ("/run/fail2ban", 0o755)]:
            os.makedirs(self.root.at(place), exist_ok=True)
            os.chmod(self.root.at(place), mode)
        for words, _ in self.commands("ExecStartPre"):
            self.root.run(*words, environment=self.environment)
        ready = self.said().count("INFO Server ready")
        [(words, _)] = self.commands("ExecStart")
        self.server = self.root.start(*words, environment=self.environment, said="/said", errors="/errors")
        self.says("INFO Server ready", ready + 1)

    def kill(self):
        self.server.kill()
        self.server.wait()

    def said(self):
        if not os.path.exists(self.root.at("/said")):
            return []
        return [line.split(" ", 1)[-1] for line in self.root.read("/said").splitlines()]

    def says(self, line, count=1):
        wait_for(lambda: self.said().count(line) >= count or self.server.poll() is not None, line, lambda: len(self.said()))
        want(self.said().count(line) >= count, f"the server ended: {self.said()[-3:]}, {self.root.read('/errors')}")

    def fail(self, jail, address, times):
        """So many failures of the address, now, as the jail's service logs them."""
        log, form, line = JAILS[jail]
        date = time.strftime(form, time.gmtime(time.time() + self.ahead))
        self.root.write(log, line.format(date=date, address=address) * times, "a")

    def banned(self, jail, *addresses):
        """Waits until the file of the action dummy has these addresses, and no others."""
        path = f"/run/fail2ban/{jail}.banned"
        wait_for(lambda: self.in_file(path) == list(addresses), f"{path}: {addresses}", lambda: self.in_file(path))

    def in_file(self, path):
        try:
            return self.root.read(path).splitlines()
        except FileNotFoundError:
            return None

    def ask(self, *words, status=0):
        """What the server replies by its client, at the client's own place for the socket."""
        return self.root.run("/usr/bin/fail2ban-client", *words, environment=self.environment, status=status)[0]


def tests_the_filter(root):
    """The command of README that tests the filter of sshd, before the service has ever been started: two links of the configuration lead to nothing then."""
    with open(os.path.join(TOP, "README.md"), encoding="utf-8") as file:
        [words] = re.findall(r"^    (fail2ban-regex .*?) +#", file.read(), re.MULTILINE)
    log, form, line = JAILS["sshd"]
    root.write(log, line.format(date=time.strftime(form, time.gmtime()), address="198.51.100.7") * 3 + "no failure\n")
    said, _ = root.run(*words.split(), environment={"PATH": PATH})
    want("Lines: 4 lines, 0 ignored, 3 matched, 1 missed" in said, f"{words}: {said}")
    os.remove(root.at(log))


@contextlib.contextmanager
def serving(root):
    """A server that was installed and started as README says, but for the action."""
    root.furnish()
    root.make("install", "PREFIX=/usr")
    tests_the_filter(root)
    root.write("/etc/fail2ban/jail.local", LOCAL)
    root.write("/etc/fail2ban/action.d/dummy.local", SLOW_STOP)
    for log, _, _ in JAILS.values():
        root.write(log, "")
    service = Service(root)
    service.start()
    yield service
    same(root.read("/errors"), "", "standard error")
    same([line for line in service.said() if line.startswith(("ERROR", "WARNING"))], [], "faults")


def bans_by_three_filters(root):
    """the service bans by the configuration that ships, in the machine's zone, goes on behind kill -9, reloads, and stops in order by its client"""
    with serving(root) as service:
        want("logtimezone = UTC" + OFFSET in root.read("/var/lib/fail2ban/zone.local"), "the zone")
        want("boot = " in root.read("/var/lib/fail2ban/boot.local"), "the machine's start")
        same(os.readlink(root.at("/run/fail2ban/fail2ban.sock")), "/var/lib/fail2ban/fail2ban.sock", "the link to the socket")
        for number, jail in enumerate(JAILS, 1):
            service.fail(jail, f"198.51.100.{number}", 4)
            service.fail(jail, f"2001:db8::{number}", 5)
            service.says(f"NOTICE [{jail}] Ban 2001:db8::{number}")
            service.banned(jail, f"2001:db8::{number}")
        service.kill()
        for number, jail in enumerate(JAILS, 1):
            service.fail(jail, f"198.51.100.{number}", 1)
        service.start()
        for number, jail in enumerate(JAILS, 1):
            service.says(f"NOTICE [{jail}] Ban 198.51.100.{number}")
            service.banned(jail, f"2001:db8::{number}", f"198.51.100.{number}")
        bans = [line for line in service.said() if " Ban " in line]
        same(len(bans), 2 * len(JAILS), f"bans, each said once: {bans}")
        asks_of_the_jails(service)
        stops_in_order(service)
    return "with status, reload and stop by the client"


def stops_in_order(service):
    """The part of clients: what the unit asks for by the client, at the socket that the link leads to."""
    want(f"Jail list:\t{', '.join(JAILS)}\n" in service.ask("status"), service.ask("status"))
    want("Banned IP list:\t2001:db8::1 198.51.100.1\n" in service.ask("status", "sshd"), service.ask("status", "sshd"))
    same(service.ask("set", "sshd", "unbanip", "198.51.100.1"), "1\n", "unbanip")
    service.says("NOTICE [sshd] Unban 198.51.100.1")
    service.root.write("/run/let-stop", "")
    reloads(service)
    os.remove(service.root.at("/run/let-stop"))
    # The command waits until the server has ended, which is not before its actions are down.
    [(words, may_fail)] = service.commands("ExecStop")
    want(may_fail, "where the stop fails a signal has to follow")
    words = [str(service.server.pid) if word == "$MAINPID" else word for word in words]
    stop = service.root.start(*words, environment=service.environment, said="/stop", errors="/errors")
    service.says("INFO Stopping")
    time.sleep(1)
    same((service.server.poll(), stop.poll()), (None, None), "status of the server, and of its stop, while an action stops")
    service.root.write("/run/let-stop", "")
    wait_for(lambda: service.server.poll() is not None, "the server's end", lambda: len(service.said()))
    wait_for(lambda: stop.poll() is not None, "the end of the stop")
    same((service.server.returncode, stop.returncode), (0, 0), "status of the server, and of its stop")
    for jail in JAILS:
        same(service.in_file(f"/run/fail2ban/{jail}.banned"), None, f"what the action's stop leaves of {jail}")


def asks_of_the_jails(service):
    """What ships bans as README's first minutes say: five failures in ten minutes keep out for ten minutes."""
    for jail in JAILS:
        same({item: service.ask("get", jail, item) for item in LIMITS}, LIMITS, f"what {jail} has")


def reloads(service):
    """The unit's reload takes the machine's zone of now, and what changed in the configuration: a jail less, which lets in whom it had banned."""
    jails = [jail for jail in JAILS if jail != "nginx-http-auth"]
    service.root.write("/etc/fail2ban/jail.local", LOCAL.replace("[nginx-http-auth]\nenabled = true", "[nginx-http-auth]\nenabled = false"))
    service.environment["TZ"], service.ahead = OTHER_ZONE, OTHER_SECONDS
    for words, may_fail in service.commands("ExecReload"):
        want(not may_fail, "where the configuration is not taken the reload has to fail")
        service.root.run(*words, environment=service.environment)
    same(service.said()[-1:], ["INFO Reloaded"], "said")
    want("logtimezone = UTC" + OTHER_OFFSET in service.root.read("/var/lib/fail2ban/zone.local"), "the zone")
    want(f"Jail list:\t{', '.join(jails)}\n" in service.ask("status"), service.ask("status"))
    wait_for(lambda: service.in_file("/run/fail2ban/nginx-http-auth.banned") is None, "the end of the action of a jail that is gone")
    service.fail("sshd", "198.51.100.9", 5)
    service.says("NOTICE [sshd] Ban 198.51.100.9")
    service.banned("sshd", "2001:db8::1", "198.51.100.9")


def zone_is_looked_at(root):
    """the service's timer has the server read its configuration again where the machine's zone is another one, or was not read, and not else"""
    root.furnish()
    root.make("install", "PREFIX=/usr")
    script = ["/usr/lib/fail2ban/zone"]
    summer, winter = {"PATH": PATH, "TZ": "CEST-2"}, {"PATH": PATH, "TZ": "CET-1"}
    root.run(*script, "--changed", environment=summer)
    root.run(*script, environment=summer)
    want(root.read("/var/lib/fail2ban/zone.local").endswith("[DEFAULT]\nlogtimezone = UTC+0200\n"), root.read("/var/lib/fail2ban/zone.local"))
    root.run(*script, "--changed", environment=summer, status=1)
    root.run(*script, "--missed", environment=summer)
    root.run(*script, "--changed", environment=summer)
    root.run(*script, environment=summer)
    root.run(*script, "--changed", environment=summer, status=1)
    root.run(*script, "--changed", environment=winter)
    root.run(*script, environment={**winter, "TZ": "NST3:30"})
    want("UTC-0330" in root.read("/var/lib/fail2ban/zone.local"), root.read("/var/lib/fail2ban/zone.local"))
    unit = items(root.read(f"{UNITS}/fail2ban-zone.service"))
    same([command for name, command in unit if name == "ExecCondition"], [" ".join([*script, "--changed"])], "condition")
    [command] = [command for name, command in unit if name == "ExecStart"]
    # A `systemctl` that fails, as where the server refuses its configuration: what it was asked is seen in the words.
    words = command.removeprefix("/bin/sh -c '").removesuffix("'")
    root.run("/bin/sh", "-c", "systemctl() { [ \"$*\" = 'reload fail2ban.service' ]; }; " + words, environment=summer)
    root.run(*script, environment=summer)
    root.run("/bin/sh", "-c", "systemctl() { return 1; }; " + words, environment=summer, status=1)
    root.run(*script, "--changed", environment=summer)
    want(root.read("/var/lib/fail2ban/zone.local").count("logtimezone = UTC+0200\n") == 1, "the zone that a reload by hand takes")


def scripts_by_hand(root):
    """boot-id and zone, run by hand before a start, write where the links of the configuration lead"""
    root.furnish()
    root.make("install", "PREFIX=/usr")
    for name, path in [("boot-id", "/etc/fail2ban/action.d/boot.local"), ("zone", "/etc/fail2ban/zone.local")]:
        root.run(f"/usr/lib/fail2ban/{name}", environment={"PATH": PATH})
        said, _ = root.run("/bin/cat", path, environment={"PATH": PATH})
        want(said.startswith(f"# Written by {name} "), f"{path}: {said}")
        want(os.path.islink(root.at(path)), f"{path} is a link no more")


def stop_without_server(root):
    """the service's stop is done where the server has ended already, and says so where nobody answers"""
    root.furnish()
    root.make("install", "PREFIX=/usr")
    environment = {"PATH": PATH}
    root.run("/usr/lib/fail2ban/stop", environment=environment)
    _, errors = root.run("/usr/lib/fail2ban/stop", str(os.getpid()), environment=environment, status=8)
    want("the server was not asked (status 8)" in errors, errors)


def time_to_stop_is_the_sum(_root):
    """TimeoutStopSec is the sum that stands beside it"""
    with open(os.path.join(TOP, "service/fail2ban.service"), encoding="utf-8") as file:
        text = file.read()
    parts = [int(seconds) for seconds in re.findall(r"^#   .* (\d+) s$", text, re.MULTILINE)]
    same(len(parts), 3, "parts")
    want(("TimeoutStopSec", str(sum(parts))) in items(text), text)


CHECKS = [bans_by_three_filters, zone_is_looked_at, scripts_by_hand, stop_without_server, time_to_stop_is_the_sum]
