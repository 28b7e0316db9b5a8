"""The texts of the actions: what is put into them stands in the shell's quotes, but for what has to be words of the shell."""

import glob
import os
import re

from room import CONF, same

COMMANDS = ["actionstart", "actionstop", "actioncheck", "actionban", "actionunban"]

# The options and items that are words of the shell, by action: commands, pieces of commands, and lists of words. docs/actions.md names those of them that
# are options.
WORDS = {
    "nftables": [],
    "iptables-ipset": ["iptables", "rule", "ports-<type>", "protocols-<type>", "actionstop"],
    "iptables": ["iptables", "rule", "ports-<type>", "protocols-<type>", "actionstop"],
    "route": ["ip_command", "table", "actionstop"],
    "dummy": [],
    "mail": ["mailcmd"],
}


def items(path):
    """The items of a file: by name all that follows, until the next item, comment or section."""
    with open(path, encoding="utf-8") as file:
        text = re.sub(r"^#.*\n", "", file.read(), flags=re.MULTILINE)
    return dict(re.findall(r"^([\w-]+) = ?(.*(?:\n[ \t].*)*)", text, re.MULTILINE))


def end_of_tag(text, at):
    """Where a tag that begins there ends, with the tags in its name; None where none begins there."""
    found = re.match(r"<[a-z_][\w-]*(?:<[a-z_]\w*>)?>", text[at:])
    return at + found.end() if found else None


def bare_tags(text):
    """The tags of a text of the shell that stand in no quotes. What stands in a `$(..)` is a text of the shell again, and a comment is none."""
    inside, at, found = ["$("], 0, []
    while at < len(text):
        end = end_of_tag(text, at)
        top, two = inside[-1], text[at : at + 2]
        if end:
            found += [text[at + 1 : end - 1]] if top == "$(" else []
            at = end
        elif top == "'":
            inside = inside[:-1] if text[at] == "'" else inside
            at += 1
        elif two == "$(":
            inside, at = [*inside, "$("], at + 2
        elif text[at] == "\\":
            at += 2
        elif top == '"':
            inside = inside[:-1] if text[at] == '"' else inside
            at += 1
        elif text[at] in "'\"":
            inside, at = [*inside, text[at]], at + 1
        elif text[at] == ")" and len(inside) > 1:
            inside, at = inside[:-1], at + 1
        elif text[at] == "#" and (at == 0 or text[at - 1].isspace()):
            at = (text + "\n").index("\n", at)
        else:
            at += 1
    same(inside, ["$("], f"quotes that are open at the end of {text!r}")
    return found


def all_is_quoted(_room):
    """in the actions' texts all that is put in stands in quotes, but for the words of a list"""
    same(bare_tags("a <b> '<c>' \"<d> $(e <f> '<g>')\" # <h>\n<i-<j>> '\"<k>\"' \\'<l>"), ["b", "f", "i-<j>", "l"], "tags of a text to try this by")
    conf = os.path.join(CONF, "action.d")
    names = sorted(os.path.basename(path)[:-5] for path in glob.glob(os.path.join(conf, "*.conf")))
    same(names, sorted([*WORDS, "common"]), "actions that ship")
    for name, words in WORDS.items():
        texts = items(os.path.join(conf, name + ".conf"))
        # What stands as words is a text of the shell itself.
        pieces = [each for each in texts if each in COMMANDS or any(re.fullmatch(word.replace("<type>", r"\w+"), each) for word in words)]
        bare = {tag for piece in pieces for tag in bare_tags(texts[piece])}
        same(bare, set(words), f"{name}: what stands without quotes")


# What an option is where nothing is said, of IPv4 and of IPv6, and as docs/actions.md tells it in the option's row.
DEFAULTS = [
    ("common", "type", ["multiport"], "Default `multiport`"),
    ("common", "port", ["0:65535"], "Default all, `0:65535`"),
    ("common", "protocol", ["tcp"], "Default `tcp`"),
    ("nftables", "blocktype", ["reject"], "`reject` or `drop` in `nftables`"),
    ("nftables", "chain_hook", ["input"], "Default `input` and `filter - 1`"),
    ("nftables", "chain_priority", ["filter - 1"], "Default `input` and `filter - 1`"),
    ("nftables", "table", ["f2b-<name>"], "default `f2b-` and the jail's name"),
    ("iptables-ipset", "blocktype", ["REJECT"], "`REJECT`, `DROP` or another target"),
    ("iptables-ipset", "chain", ["INPUT"], "Default `INPUT`"),
    ("iptables-ipset", "ipmset", ["f2b-<name>"], "default `f2b-` and the jail's name"),
    ("iptables-ipset", "maxelem", ["1000000"], "default 1,000,000"),
    ("iptables", "blocktype", ["REJECT"], "`REJECT`, `DROP` or another target"),
    ("iptables", "chain", ["INPUT"], "Default `INPUT`"),
    ("route", "blocktype", ["blackhole"], "`blackhole`, `unreachable` or `prohibit` in `route`"),
    ("route", "table", ["$(printf %%s '<name>' | cksum)"], "default a checksum of the jail's name"),
    ("route", "priority", ["1000"], "Default 1000"),
    ("dummy", "file", ["/var/run/fail2ban/<name>.banned"], "Default `/var/run/fail2ban/JAIL.banned`"),
    ("mail", "dest", ["root"], "Default `root`, `fail2ban`, `fail2ban` and `sendmail -t -i -f SENDER`"),
    ("mail", "sender", ["fail2ban"], "Default `root`, `fail2ban`, `fail2ban` and `sendmail -t -i -f SENDER`"),
    ("mail", "sendername", ["fail2ban"], "Default `root`, `fail2ban`, `fail2ban` and `sendmail -t -i -f SENDER`"),
    ("mail", "mailcmd", ["sendmail -t -i -f '<sender>'"], "Default `root`, `fail2ban`, `fail2ban` and `sendmail -t -i -f SENDER`"),
]
# Programs are no option of the page's table, but in its text: with -w each call waits until no other one changes the firewall, and without it fails.
PROGRAMS = [("iptables-ipset", "iptables", ["iptables -w", "ip6tables -w"]), ("iptables", "iptables", ["iptables -w", "ip6tables -w"])]


def values(action, name):
    """All values that an item has in an action's file, in their order."""
    with open(os.path.join(CONF, f"action.d/{action}.conf"), encoding="utf-8") as file:
        return re.findall(rf"^{name} = (.*)$", file.read(), re.MULTILINE)


def defaults_are_told(_room):
    """where nothing is said an option is what docs/actions.md tells in its row, and iptables waits for others"""
    with open(os.path.join(CONF, "../docs/actions.md"), encoding="utf-8") as file:
        rows = re.findall(r"^\| (`.*?) \|.*?\| (.*) \|$", file.read(), re.MULTILINE)
    told = {name: text for names, text in rows for name in re.findall(r"`(\w+)`", names)}
    for action, name, wanted, words in DEFAULTS:
        same(values(action, name), wanted, f"{name} of {action}")
        same(words in told[name], True, f"whether docs/actions.md has {words!r} of {name}")
    for action, name, wanted in PROGRAMS:
        same(values(action, name), wanted, f"{name} of {action}")


def a_mail_has_no_check(_room):
    """mail has an empty check, since a check that failed would write all mails again, and each other action has one"""
    for name in WORDS:
        text = items(os.path.join(CONF, f"action.d/{name}.conf"))["actioncheck"]
        same(text == "", name == "mail", f"whether the check of {name} is empty")


def checks(is_real):
    if not is_real:
        for check in [all_is_quoted, defaults_are_told, a_mail_has_no_check]:
            yield check.__doc__, check
