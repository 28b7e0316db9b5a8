"""Which jails, filters and actions of a configuration are taken, each by itself.

    python3 bench/taken.py SERVER TESTER DIRECTORY
"""

import collections
import os
import re
import shutil
import subprocess
import sys
import tempfile

JAIL = """\
[x]
enabled = true
logpath = {log}
failregex = ^<ADDR>$
action = {action}
"""


def write(path, text):
    with open(path, "w", encoding="utf-8") as file:
        file.write(text)


def names(conf, folder):
    return sorted(name[:-5] for name in os.listdir(os.path.join(conf, folder)) if name.endswith(".conf"))


def why(said):
    """What a refusal says, in few words: the item and the kind."""
    refused = re.search(r"refused: .*?(\S+: \S+|\S+ \d* ?(?:Syntax|TooBig))", said)
    return refused.group(1) if refused else said.strip()


def one_turn(server, conf, place):
    """The server's status over a configuration, and what it said. Its commands find no program."""
    shutil.rmtree(os.path.join(place, "run"), ignore_errors=True)
    ended = subprocess.run([server, "--conf", conf, "--turns", "1"], capture_output=True, text=True, env={"PATH": "/nowhere"}, check=False)
    return ended.returncode, ended.stdout


def shown(what, results):
    taken = sum(1 for status, _ in results.values() if status == 0)
    print(f"{what}: {taken} of {len(results)} are taken")
    for name, (status, said) in results.items():
        if status != 0:
            print(f"    {name}: status {status}, {why(said)}")
    kinds = collections.Counter(why(said).split()[-1] for status, said in results.values() if status != 0)
    print(f"    {dict(kinds)}")


def main(server, tester, source):
    with tempfile.TemporaryDirectory(prefix="fail2ban-taken-") as place:
        conf = os.path.join(place, "conf")
        shutil.copytree(source, conf)
        shutil.rmtree(os.path.join(conf, "jail.d"), ignore_errors=True)
        write(os.path.join(conf, "fail2ban.local"), f"[Definition]\nsocket = {place}/run/socket\n")
        with open(os.path.join(conf, "jail.conf"), encoding="utf-8") as file:
            jails = [name for name in re.findall(r"^\[([^\]]+)\]", file.read(), re.MULTILINE) if name not in ("DEFAULT", "INCLUDES")]
        of_jails = {}
        for jail in jails:
            write(os.path.join(conf, "jail.local"), f"[{jail}]\nenabled = true\n")
            of_jails[jail] = one_turn(server, conf, place)
        shown("jails", of_jails)
        of_filters = {}
        for name in names(conf, "filter.d"):
            ended = subprocess.run([tester, "-c", conf, "no such line", name], capture_output=True, text=True, check=False)
            of_filters[name] = ended.returncode, ended.stdout
        shown("filters", of_filters)
        os.remove(os.path.join(conf, "jail.local"))
        of_actions = {}
        for name in names(conf, "action.d"):
            write(os.path.join(conf, "jail.conf"), JAIL.format(log=os.path.join(place, "log"), action=name))
            of_actions[name] = one_turn(server, conf, place)
        shown("actions", of_actions)


if __name__ == "__main__":
    if len(sys.argv) != 4:
        sys.exit(__doc__)
    main(*sys.argv[1:])
