"""Which files an install makes, what it leaves as it is, and what a package holds."""

import filecmp
import os
import re
import stat

from root import TOP, needs, run, same, want

INSTALLED = """\
/etc/logrotate.d/fail2ban
/usr/bin/fail2ban-client
/usr/bin/fail2ban-regex
/usr/bin/fail2ban-server
/usr/lib/fail2ban/boot-id
/usr/lib/fail2ban/stop
/usr/lib/fail2ban/zone
/usr/lib/systemd/system/fail2ban-journal.service
/usr/lib/systemd/system/fail2ban-zone.service
/usr/lib/systemd/system/fail2ban-zone.timer
/usr/lib/systemd/system/fail2ban.service
/usr/share/bash-completion/completions/fail2ban-client
/usr/share/bash-completion/completions/fail2ban-regex
/usr/share/bash-completion/completions/fail2ban-server
/usr/share/man/man1/fail2ban-client.1
/usr/share/man/man1/fail2ban-regex.1
/usr/share/man/man1/fail2ban-server.1
/usr/share/man/man5/jail.conf.5
/usr/share/man/man7/fail2ban-differences.7
/usr/share/zsh/site-functions/_fail2ban
"""


FOLDERS_LEFT = """\
/etc
/etc/fail2ban
/etc/logrotate.d
/usr
/usr/bin
/usr/lib
/usr/share
/usr/share/man
/var
/var/lib
/var/lib/fail2ban
"""


def shipped():
    """The files of conf/, without conf/."""
    conf = os.path.join(TOP, "conf")
    return sorted(os.path.join(directory, name)[len(conf) :] for directory, _, names in os.walk(conf) for name in names)


# What the service writes before each start.
LINKS = {"/action.d/boot.local": "/var/lib/fail2ban/boot.local", "/zone.local": "/var/lib/fail2ban/zone.local"}


def is_as_shipped(root, place, links=()):
    """A configuration in the root is that of conf/, with these links, and all may read it."""
    same(root.files(place), sorted(place + name for name in [*shipped(), *links]), "the configuration")
    for name in links:
        same(os.readlink(root.at(place + name)), LINKS[name], name)
    for directory, _, _ in os.walk(root.at(place)):
        same(oct(os.stat(directory).st_mode & 0o777), "0o755", directory)
    for name in shipped():
        ours, theirs = os.path.join(TOP, "conf" + name), root.at(place + name)
        with open(ours, "rb") as one, open(theirs, "rb") as other:
            same(other.read(), one.read(), name)
        same(stat.S_IMODE(os.stat(theirs).st_mode), 0o644, name)


def files_are_there(root):
    """make install puts programs, units, manuals, completion and the configuration into an empty root, whatever the umask is"""
    root.make("install", "PREFIX=/usr", umask=0o077)
    others = [name for name in root.files() if not name.startswith(("/etc/fail2ban/", "/usr/share/fail2ban/"))]
    same(others, INSTALLED.splitlines(), "files")
    is_as_shipped(root, "/etc/fail2ban", LINKS)
    is_as_shipped(root, "/usr/share/fail2ban/conf")
    for name in others:
        is_program = name.startswith(("/usr/bin/", "/usr/lib/fail2ban/"))
        same(oct(os.stat(root.at(name)).st_mode & 0o777), "0o755" if is_program else "0o644", name)
    for name in ["server", "client", "regex"]:
        said, _ = run(root.at(f"/usr/bin/fail2ban-{name}"), "--version")
        same(said.split(" ")[0], f"fail2ban-{name}", "version")


def prefix_is_taken(root):
    """make install puts the paths of another PREFIX into units and scripts; without one it is /usr/local"""
    for words, prefix in [([], "/usr/local"), (["PREFIX=/opt/f2b"], "/opt/f2b")]:
        root.make("install", *words)
        for name in ["lib/systemd/system/fail2ban.service", "lib/systemd/system/fail2ban-zone.service", "lib/fail2ban/stop"]:
            text = root.read(f"{prefix}/{name}")
            want(f"{prefix}/" in text and "/usr/bin/" not in text and "/usr/lib/" not in text, f"{name}: {text}")


def unit_reads_the_configuration(root):
    """the unit reads the configuration where make install with another CONFDIR lays it"""
    root.make("install", "PREFIX=/usr", "CONFDIR=/opt/f2b/etc")
    is_as_shipped(root, "/opt/f2b/etc", LINKS)
    unit = root.read("/usr/lib/systemd/system/fail2ban.service")
    want("fail2ban-server --conf /opt/f2b/etc --" in unit and "/etc/fail2ban" not in unit, unit)


def configuration_is_left(root):
    """make install leaves a configuration that is there as it is; make install-conf lays over it what ships, and leaves all else"""
    root.make("install", "PREFIX=/usr")
    mine = {"/etc/fail2ban/jail.local": "[sshd]\nport = 2222\n", "/etc/fail2ban/filter.d/own.conf": "[Definition]\n"}
    changed = {"/etc/fail2ban/jail.conf": "# changed\n", "/etc/logrotate.d/fail2ban": "# changed\n"}
    for path, text in {**mine, **changed}.items():
        root.write(path, text)
    gone = ["/etc/fail2ban/action.d/route.conf", "/etc/fail2ban/zone.local"]
    for path in gone:
        os.remove(root.at(path))
    before = root.files("/etc")
    said, _ = root.make("install", "PREFIX=/usr")
    want("the configuration in /etc/fail2ban is left as it is" in said, said)
    same(root.files("/etc"), before, "files")
    for path, text in {**mine, **changed}.items():
        same(root.read(path), text, path)
    # The copy to compare with is that of now, and no other one stands in it.
    is_as_shipped(root, "/usr/share/fail2ban/conf")
    root.make("install-conf", "PREFIX=/usr")
    for path, text in mine.items():
        same(root.read(path), text, path)
        os.remove(root.at(path))
    is_as_shipped(root, "/etc/fail2ban", LINKS)


def own_zone_stays(root):
    """make install and make install-conf leave a zone.local and a boot.local of one's own, in place of the links"""
    own = {"/etc/fail2ban/zone.local": "[DEFAULT]\nlogtimezone = UTC+0100\n", "/etc/fail2ban/action.d/boot.local": "[Init]\nboot = mine\n"}
    for path, text in own.items():
        root.write(path, text)
    for target in ["install", "install-conf"]:
        root.make(target, "PREFIX=/usr")
        for path, text in own.items():
            same((os.path.islink(root.at(path)), root.read(path)), (False, text), f"{path} behind make {target}")


def jail_local_stays(root):
    """make install lays what ships beside a jail.local and a filter that stand there without a jail.conf, and leaves both"""
    root.write("/etc/fail2ban/jail.local", "[sshd]\nport = 2222\n")
    root.write("/etc/fail2ban/filter.d/sshd.conf", "# changed\n")
    os.chmod(root.at("/etc/fail2ban/jail.local"), 0o600)
    root.make("install", "PREFIX=/usr", umask=0o077)
    same(root.read("/etc/fail2ban/filter.d/sshd.conf"), "# changed\n", "a filter that ships by the same name")
    root.make("install-conf", "PREFIX=/usr")
    same(root.read("/etc/fail2ban/jail.local"), "[sshd]\nport = 2222\n", "jail.local")
    same(oct(os.stat(root.at("/etc/fail2ban/jail.local")).st_mode & 0o777), "0o600", "its mode")
    os.remove(root.at("/etc/fail2ban/jail.local"))
    is_as_shipped(root, "/etc/fail2ban", LINKS)


def uninstall_takes_all(root):
    """make uninstall takes away what was installed, but for the configuration and what is not its own"""
    root.write("/usr/bin/other", "")
    root.write("/var/lib/fail2ban/journal.0", "")
    root.make("install", "PREFIX=/usr")
    root.make("uninstall", "PREFIX=/usr")
    left = [name for name in root.files() if not name.startswith("/etc/fail2ban/")]
    same(left, ["/usr/bin/other", "/var/lib/fail2ban/journal.0"], "files")
    is_as_shipped(root, "/etc/fail2ban", LINKS)
    # Folders that each machine has stay, and those of what is left.
    below = [name for name in root.folders() if not name.startswith("/etc/fail2ban/")]
    same(below, FOLDERS_LEFT.splitlines(), "folders")


def rotation_of_ones_own_stays(root):
    """make uninstall leaves what says how logs are rotated where somebody changed it"""
    root.make("install", "PREFIX=/usr")
    root.write("/etc/logrotate.d/fail2ban", "# changed\n")
    root.make("uninstall", "PREFIX=/usr")
    same(root.files("/etc/logrotate.d"), ["/etc/logrotate.d/fail2ban"], "left")
    same(root.read("/etc/logrotate.d/fail2ban"), "# changed\n", "/etc/logrotate.d/fail2ban")


def package_is_made(root):
    """make deb makes a package with the same files, which asks before it replaces a file of the configuration"""
    needs("make", "dpkg-deb", "dpkg", "gzip")
    # Fast, and not small.
    said, _ = run("make", "-s", "deb", "CHECKED=yes", env={**os.environ, "DPKG_DEB_COMPRESSOR_TYPE": "none"})
    package = os.path.join(TOP, said.strip().splitlines()[-1])
    try:
        run("dpkg-deb", "-R", package, root.at("/all"))
        listed, _ = run("dpkg-deb", "-c", package)
    finally:
        os.remove(package)
    same({line.split()[1] for line in listed.splitlines()}, {"root/root"}, "owners")
    wanted = [name + ".gz" if "/man/" in name else name.replace("site-functions", "vendor-completions") for name in INSTALLED.splitlines()]
    apart = ("/all/DEBIAN/", "/all/etc/fail2ban/", "/all/usr/share/fail2ban/", "/all/usr/share/doc/")
    same([name[4:] for name in root.files("/all") if not name.startswith(apart)], sorted(wanted), "files")
    is_as_shipped(root, "/all/etc/fail2ban", LINKS)
    conffiles = root.read("/all/DEBIAN/conffiles").splitlines()
    of_etc = [name[4:] for name in root.files("/all/etc") if not os.path.islink(root.at(name))]
    same(conffiles, of_etc, "files that are asked about")
    control = root.read("/all/DEBIAN/control")
    # The jails that ship ban by nft.
    for line in ["Package: fail2ban-gearcrimson", "Conflicts: fail2ban", "Recommends: nftables\n", "Version: "]:
        want(line in control, control)
    is_proved = all(same_file(root.at(f"/all/usr/bin/fail2ban-{name}"), f"{TOP}/crates/fail2ban_{name}/out/fail2ban_{name}") for name in root.programs)
    same("What it does is proved." in control, is_proved, f"whether it is said to be proved: {control}")
    same("It is built with checks while it runs, and without proofs." in control, not is_proved, control)
    for script in ["postinst", "prerm", "postrm"]:
        run("sh", "-n", root.at(f"/all/DEBIAN/{script}"))
    links_lead_somewhere(root, "/all/usr/share/doc/fail2ban-gearcrimson")


def same_file(one, other):
    """Whether both are there, with the same bytes."""
    return os.path.exists(other) and filecmp.cmp(one, other, shallow=False)


def links_lead_somewhere(root, place):
    """Each link of the package's pages leads to a file of the package, or to another machine."""
    count = 0
    for path in root.files(place):
        if path.endswith(".md"):
            for link in re.findall(r"\]\(([^)#\s]+)", root.read(path)):
                count += 1
                want("://" in link or os.path.exists(os.path.join(os.path.dirname(root.at(path)), link)), f"{path} has a link to {link}")
    want(count > 50, f"links: {count}")


CHECKS = [
    files_are_there,
    prefix_is_taken,
    unit_reads_the_configuration,
    configuration_is_left,
    own_zone_stays,
    jail_local_stays,
    uninstall_takes_all,
    rotation_of_ones_own_stays,
    package_is_made,
]
