"""The filters of conf/ over the logs that stand here, and all of conf/ in the server.

    python3 tests/filters TESTER SERVER         makes all checks
    python3 tests/filters TESTER SERVER WORD    makes those whose name has the word

A log has above each line what the filter has to make of it, and why:

    # 192.0.2.7 2024-03-01T10:00:00Z 1: a failure of that address at that time, by the filter's first pattern
    # 192.0.2.7 03-01T10:00:00Z 1: the same in a log without years: the latest year in which that is not more than a day ahead
    # 192.0.2.7 now 1: the same of a line that is dated as it comes
    # ignored 2: the second pattern of ignored lines matches
    # missed: nothing is found

`hostile` in front of it marks a line in which a client wrote a date, an address or a tag. At the top of a log stand

    # filter: NAME[mode=aggressive]    which filter it is of, where its name is another one
    # words: user (\\S+) from           where a client's words stand in a line, by the group of a pattern
    # written: " as \\x22               how the service writes a character of these words

Pieces of other failures, with the address of a stranger, are put in the place of these words: nobody but the client may be found then.
"""

import calendar
import glob
import os
import random
import re
import shutil
import subprocess
import sys
import tempfile
import time
from dataclasses import dataclass, field

HERE = os.path.dirname(os.path.abspath(__file__))
sys.path.append(os.path.dirname(HERE))

from checks import Failed, status_of

CONF = os.path.join(HERE, "../../conf")

# What each filter's own log has at least.
LINES, FOUND, LEFT, HOSTILE = 15, 10, 5, 2

HEAD = re.compile(r"# (filter|words|written): (.+)$")
WANTED = re.compile(r"# (hostile )?(?:(?P<left>missed|ignored \d+)|(?P<found>\S+ (?:now|(?:\d{4}-)?\d\d-\d\dT\d\d:\d\d:\d\dZ) \d+))(?:: .*)?$")
SHOWN_FOUND = re.compile(r" {3}(\d+)\) (\S+) (\S+) \S+ (?:\d+-\d+|-) (.*)$")
HEADINGS = {"Matched lines:": "found", "Ignored lines:": "ignored", "Missed lines:": "missed"}

# Whom no line may find by a client's words, and how many lines with such words are made of a log.
STRANGER, ATTACKS = "192.0.2.99", 150

# Where a piece of a line may begin or end.
EDGES = re.compile(r"(?<=[ <>\"'\[\](),:=])|(?=[ <>\"'\[\](),:=])|^|$")

# What the actions of the jails would change: these are programs that do nothing here. tests/actions.sh looks at actions.
PROGRAMS = ["nft"]

# How many seconds a program may take, on a machine that is busy with other work.
PATIENCE = 600


@dataclass
class Line:
    text: str
    wanted: str
    is_hostile: bool

    def address(self):
        """Whose failure the line is, or nothing."""
        words = self.wanted.split(" ")
        return words[0] if len(words) == 3 else ""


@dataclass
class Log:
    filter: str
    words: list = field(default_factory=list)
    written: dict = field(default_factory=dict)
    lines: list = field(default_factory=list)

    def say(self, what, value):
        if what == "filter":
            self.filter = value
        elif what == "words":
            self.words.append(re.compile(value))
        else:
            self.written.update([value.split(" as ")])


def second(date):
    """The second since 1970 of a date in UTC, which may lack its year."""
    if date[4] == "-":
        return calendar.timegm(time.strptime(date, "%Y-%m-%dT%H:%M:%SZ"))
    latest = time.time() + 86_400
    for year in range(time.gmtime(latest).tm_year, 1970, -1):
        try:
            at = calendar.timegm(time.strptime(f"{year}-{date}", "%Y-%m-%dT%H:%M:%SZ"))
        except ValueError:
            continue
        if at <= latest:
            return at
    raise Failed(f"no year has {date}")


def read(path):
    """What stands in a log."""
    log, above = Log(os.path.basename(path).removesuffix(".log")), None
    with open(path) as file:
        for number, text in enumerate(file.read().splitlines(), 1):
            head = HEAD.match(text)
            if head:
                log.say(*head.groups())
            elif text.startswith("# "):
                above = WANTED.match(text)
                if not above:
                    raise Failed(f"line {number} says nothing that can be wanted: {text}")
            elif above:
                log.lines.append(Line(text, above["found"] or above["left"], bool(above[1])))
                above = None
            else:
                raise Failed(f"line {number} does not have above it what is wanted of it: {text}")
    return log


def run(*words, environment=None):
    ended = subprocess.run(words, stdin=subprocess.DEVNULL, capture_output=True, env=environment, timeout=PATIENCE, check=False)
    return ended.returncode, ended.stdout.decode(), ended.stderr.decode()


def shown(report):
    """The lines that the tester shows under its headings, each with what it says of it. Which pattern ignored a line it does not show."""
    under, lists = None, {"found": [], "ignored": [], "missed": []}
    for text in report.splitlines():
        if text in HEADINGS:
            under = HEADINGS[text]
        elif text.startswith("WARNING "):
            under = None
        elif under == "found":
            pattern, address, at, line = SHOWN_FOUND.match(text).groups()
            lists[under].append((f"{address} {at} {pattern}", line))
        elif under:
            lists[under].append((under, text[3:]))
    return lists


def same_line(line, lists):
    """Takes the line from the list whose next one it is, and gives what was said of it."""
    for each in lists.values():
        if each and each[0][1] == line.text:
            return each.pop(0)[0]
    return "in no list"


def wanted_in_seconds(line):
    """What is wanted of a line, in the tester's words."""
    words = line.wanted.split(" ")
    if len(words) < 3:
        return words[0]
    return f"{words[0]} {words[1] if words[1] == 'now' else second(words[1])} {words[2]}"


def is_same(saw, wanted, began):
    """Whether the tester said what is wanted; now is a second since it began."""
    if " now " not in wanted:
        return saw == wanted
    words = saw.split(" ")
    return len(words) == 3 and began <= int(words[1]) <= time.time() and saw == wanted.replace("now", words[1])


def ignored_counts(report):
    """How many lines each pattern of ignored lines decided."""
    behind = report.split("\nIgnoreregex: ", 1)[1].split("\nLines: ", 1)[0]
    return {int(number): int(count) for number, count in re.findall(r"^ +(\d+)\) \[(\d+)\]", behind, re.MULTILINE)}


def tested(tester, filter_name, lines, *options):
    """What the tester says of the lines."""
    with tempfile.NamedTemporaryFile("w") as log:
        log.write("".join(line + "\n" for line in lines))
        log.flush()
        status, report, errors = run(tester, *options, "-c", CONF, log.name, filter_name)
    if (status, errors) != (0, ""):
        raise Failed(f"the tester ended with {status}: {report}{errors}")
    return report


def log_is_read_so(tester, path):
    """Each line of the log comes to what stands above it."""
    log = read(path)
    if len({line.text for line in log.lines}) < len(log.lines):
        raise Failed("a line stands there twice")
    began = int(time.time())
    report = tested(tester, log.filter, [line.text for line in log.lines], "-v", "--print-all-ignored", "--print-all-missed")
    lists = shown(report)
    wrong = []
    for line in log.lines:
        saw, wanted = same_line(line, lists), wanted_in_seconds(line)
        if not is_same(saw, wanted, began):
            wrong.append(f"\n  {line.text}\n    came to   {saw}\n    and not   {wanted}")
    numbers = [int(line.wanted.split(" ")[1]) for line in log.lines if line.wanted.startswith("ignored ")]
    if ignored_counts(report) != {number: numbers.count(number) for number in set(numbers)}:
        wrong.append(f"\n  lines are ignored by other patterns: {ignored_counts(report)}")
    if wrong:
        raise Failed("".join(wrong))
    found = sum(bool(line.address()) for line in log.lines)
    return f"{len(log.lines)} lines, {found} found, {sum(line.is_hostile for line in log.lines)} hostile"


def pieces(line):
    """All pieces of a failure that hold its address, which is a stranger's then."""
    text = re.sub("(::ffff:)?" + re.escape(line.address()), STRANGER, line.text)
    begin = text.find(STRANGER)
    edges = sorted({match.start() for match in EDGES.finditer(text)})
    fronts, ends = [edge for edge in edges if edge <= begin], [edge for edge in edges if edge >= begin + len(STRANGER)]
    return [text[front:end] for front in fronts for end in ends] if begin >= 0 else []


def attacks(log, chance):
    """Failures of the log with such pieces in the place of a client's words."""
    failures = [line for line in log.lines if line.address()]
    of_others = [piece for line in failures for piece in pieces(line)]
    places = [(line.text, match.span(1)) for line in failures for words in log.words for match in [words.search(line.text)] if match]
    made = set()
    for _ in range(ATTACKS):
        text, (front, end) = chance.choice(places)
        piece = chance.choice(["", "x", "x "]) + chance.choice(of_others) + chance.choice(["", "x", " x"])
        for character, instead in log.written.items():
            piece = piece.replace(character, instead)
        made.add(text[:front] + piece + text[end:])
    return sorted(made)


def words_find_nobody_else(tester, path):
    """Whatever stands in the place of a client's words, nobody is found but who is found in the log."""
    log = read(path)
    known = {line.address() for line in log.lines}
    if not log.words:
        return "none are named"
    lines = attacks(log, random.Random(1))
    rows = tested(tester, log.filter, lines, "-o", "row").splitlines()
    strangers = [row for row in rows if row.split("\t")[0] not in known]
    if strangers:
        raise Failed("".join("\n  " + row for row in strangers[:5]))
    return f"{len(lines)} lines, {len(rows)} found"


def has_lines_enough(name):
    """The filter's own log has enough lines of each kind."""
    path = os.path.join(HERE, name + ".log")
    if not os.path.isfile(path):
        raise Failed("there is no such log")
    lines = read(path).lines
    found = [line for line in lines if line.address()]
    hostile = [line for line in lines if line.is_hostile]
    saw = (len(lines), len(found), len(lines) - len(found), len(hostile))
    if any(has < needs for has, needs in zip(saw, (LINES, FOUND, LEFT, HOSTILE))):
        raise Failed(f"{saw} lines, found, left and hostile, and not {(LINES, FOUND, LEFT, HOSTILE)}")
    return ""


def jails():
    with open(os.path.join(CONF, "jail.conf")) as file:
        sections = re.findall(r"^\[(\S+)\]$", file.read(), re.MULTILINE)
    return [name for name in sections if name not in ("INCLUDES", "DEFAULT")]


def filters():
    names = [os.path.basename(path).removesuffix(".conf") for path in sorted(glob.glob(os.path.join(CONF, "filter.d/*.conf")))]
    return [name for name in names if name != "common"]


def said_of(server, local, logs):
    """What the server says in one turn over conf/ with this jail.local, where its logs are those in a folder of its own."""
    with tempfile.TemporaryDirectory(prefix="fail2ban-filters-") as place:
        conf, folder = os.path.join(place, "conf"), os.path.join(place, "log")
        shutil.copytree(CONF, conf, symlinks=True)
        os.mkdir(folder)
        os.mkdir(os.path.join(place, "bin"))
        for name in PROGRAMS:
            path = os.path.join(place, "bin", name)
            with open(path, "w") as file:
                file.write("#!/bin/sh\n")
            os.chmod(path, 0o755)
        for path in glob.glob(os.path.join(conf, "*.conf")):
            with open(path) as file:
                text = file.read()
            with open(path, "w") as file:
                file.write(text.replace("/var/log", folder))
        written = {"conf/jail.local": local, "conf/fail2ban.local": f"[Definition]\nsocket = {place}/run/fail2ban.sock\n"}
        written.update({f"log/{name}": text for name, text in logs.items()})
        for name, text in written.items():
            with open(os.path.join(place, name), "w") as file:
                file.write(text)
        status, said, errors = run(server, "--conf", conf, "--turns", "1", environment={"PATH": f"{place}/bin:{os.environ['PATH']}"})
    if (status, errors) != (0, ""):
        raise Failed(f"the server ended with {status}: {said}{errors}")
    return [line.split(" ", 1)[-1] for line in said.splitlines()]


def is_accepted(server, local):
    """The server takes conf/ with this jail.local, and waits for logs that are not there."""
    said = said_of(server, local, {})
    if said != ["INFO Server ready"]:
        raise Failed(f"it said {said}")
    return ""


def jails_find(server):
    """Jails that are enabled find what stands in their logs."""
    now = time.time()
    syslog = time.strftime("%b %e %H:%M:%S", time.gmtime(now))
    logs = {
        "auth.log": f"{syslog} host sshd[77]: Failed password for root from 198.51.100.7 port 4022 ssh2\n",
        "mail.log": f"{syslog} mx postfix/smtpd[77]: warning: unknown[198.51.100.8]: SASL LOGIN authentication failed: UGFzc3dvcmQ6\n",
        "fail2ban.log": f"{int(now)} NOTICE [sshd] Ban 198.51.100.10\n",
    }
    said = said_of(server, enabled(["postfix-sasl", "recidive"]), logs)
    found = ["[sshd] Found 198.51.100.7", "[postfix-sasl] Found 198.51.100.8", "[recidive] Found 198.51.100.10"]
    wanted = ["INFO Server ready"] + [f"INFO {each}" for each in found]
    if sorted(said) != sorted(wanted):
        raise Failed(f"it said {said}")
    return ""


def enabled(names):
    return "".join(f"[{name}]\nenabled = true\n" for name in names)


def each_filter_has_its_jail():
    """Each filter has a jail of its name."""
    without = sorted(set(filters()) - set(jails()))
    if without:
        raise Failed(f"no jail has the name of {' '.join(without)}")
    return f"{len(filters())} filters, {len(jails())} jails"


def checks(tester, server):
    for path in sorted(glob.glob(os.path.join(HERE, "*.log"))):
        yield os.path.basename(path), lambda path=path: log_is_read_so(tester, path)
        yield f"other words in {os.path.basename(path)}", lambda path=path: words_find_nobody_else(tester, path)
    for name in filters():
        yield f"{name}.log has lines enough", lambda name=name: has_lines_enough(name)
    yield "each filter has its jail", each_filter_has_its_jail
    yield "conf with jails that find", lambda: jails_find(server)
    yield "conf as it ships", lambda: is_accepted(server, "")
    yield "conf with all jails", lambda: is_accepted(server, enabled(jails()))
    fedora = "[INCLUDES]\nbefore = paths-fedora.conf\n"
    yield "conf with all jails, and the paths of Fedora", lambda: is_accepted(server, fedora + enabled(jails()))
    journal = "[INCLUDES]\nbefore = paths-journal.conf\n"
    yield "conf with all jails, and the file of the system's journal", lambda: is_accepted(server, journal + enabled(jails()))
    for name in jails():
        yield f"conf with the jail {name}", lambda name=name: is_accepted(server, enabled([name]))


def main(tester, server, word):
    return status_of("filters", checks(tester, server), word)


if __name__ == "__main__":
    if len(sys.argv) not in (3, 4):
        sys.exit(__doc__)
    sys.exit(main(*map(os.path.abspath, sys.argv[1:3]), "".join(sys.argv[3:])))
