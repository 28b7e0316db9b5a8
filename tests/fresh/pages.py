"""The manuals, the units and the completion, by what reads them and beside what the programs say of themselves."""

import os
import re

from root import TOP, needs, run, same, want

PAGES = ["fail2ban-server.1", "fail2ban-client.1", "fail2ban-regex.1", "jail.conf.5", "fail2ban-differences.7"]
PROGRAMS = ["server", "client", "regex"]


def page(name):
    with open(os.path.join(TOP, "man", name), encoding="utf-8") as file:
        return file.read()


def plain(text):
    """A page's text without fonts and with its dashes and quotes as they print."""
    text = re.sub(r"\\f[BIRP]", "", text).replace("\\-", "-").replace("\\(dq", '"').replace("\\ ", " ")
    return re.sub(r"^\.(?:BR|IR|RB|BI|B|I) ", "", text, flags=re.MULTILINE)


def section(text, name):
    return re.search(rf"^\.SH {name}\n(.*?)(?=^\.SH |\Z)", text, re.DOTALL | re.MULTILINE).group(1)


def words_of_help(text):
    """The options and statuses that a help lists: what a line begins with behind its blanks."""
    options = set(re.findall(r"(?:^  |, )(--?[a-zA-Z][\w-]*)", text, re.MULTILINE))
    statuses = re.findall(r"^ +(\d+)  ", text[text.index("Exit status:") :], re.MULTILINE)
    return options, statuses


def rows_of_help(text, head):
    """What a help lists behind a line, in its order: a name, and all that is said of it. Where nothing stands beside a name the next one has it."""
    rows, names = [], []
    for line in text[text.index(head + "\n") + len(head) + 1 :].split("\n\n")[0].splitlines():
        name, words = re.fullmatch(r" {2,3}(\S+(?: \S+)*)?(?: {2,}(\S.*))?", line).groups()
        names += [name] if name else []
        if not words:
            continue
        if names:
            rows.append((" ".join(names), words))
        else:
            rows[-1] = (rows[-1][0], rows[-1][1] + " " + words)
        names = []
    return rows


def rows_of_page(text, name):
    """What a section of a page lists, in its order: the heads, and what is said of them."""
    rows = []
    for row in section(text, name).split(".PP\n")[0].split(".TP\n")[1:]:
        lines = row.replace("\n.TQ\n", " ").splitlines()
        rows.append((lines[0], " ".join(lines[1:])))
    return rows


def pages_say_what_the_help_says(root):
    """what each --help says of a status, or of a client's command, the manual says first of it, in the same order, and docs/output.md has those statuses"""
    for name in PROGRAMS:
        said, _ = run(root.programs[name], "--help")
        parts = [("Exit status:", "EXIT STATUS")] + ([("Commands:", "COMMANDS")] if name == "client" else [])
        for head, place in parts:
            of_help, of_page = rows_of_help(said, head), rows_of_page(plain(page(f"fail2ban-{name}.1")), place)
            same([head for head, _ in of_page], [head for head, _ in of_help], f"{place} of fail2ban-{name}.1")
            for (head, shown), (_, wanted) in zip(of_page, of_help):
                want(shown.lower().startswith(wanted.lower()), f"fail2ban-{name}.1 says of {head}: {shown!r} and not {wanted!r}")
    with open(os.path.join(TOP, "docs/output.md"), encoding="utf-8") as file:
        in_docs = re.findall(r"^\| (\d+) \|", file.read(), re.MULTILINE)
    same(in_docs, [head for head, _ in rows_of_help(run(root.programs["server"], "--help")[0], "Exit status:")], "statuses in docs/output.md")


def page_of_the_configuration(_root):
    """jail.conf(5) names just the items of a server, a jail, a filter and an action that docs/configuration.md has"""
    with open(os.path.join(TOP, "docs/configuration.md"), encoding="utf-8") as file:
        rows = re.findall(r"^\| (`\S.*?`) \| (?:server|jail|filter|action)\b", file.read(), re.MULTILINE)
    text = page("jail.conf.5")
    own = "\n".join(section(text, f"ITEMS OF {place}").split("\nItems of what ships:")[0] for place in ["THE SERVER", "A JAIL", "AN ACTION"])
    named = {name for head in re.findall(r"^\.TP\n\.\w+ (.*)$", own, re.MULTILINE) for name in re.findall(r"[a-z.]+", head)}
    # What a filter has beside those of a jail stands in one sentence.
    named |= set(re.findall(r"prefregex", section(text, "ITEMS OF A FILTER")))
    same(named, {name for row in rows for name in re.findall(r"`([a-z.]+)`", row)}, "items")


def pages_have_the_version(root):
    """each manual has the version that the programs have"""
    [version] = {run(program, "--version")[0].split()[-1] for program in root.programs.values()}
    for name in PAGES:
        [head] = re.findall(r'^\.TH .* "Gearcrimson (\S+)" ', page(name), re.MULTILINE)
        same(head, version, name)


def pages_are_sound(root):
    """the manuals are read without a warning"""
    needs("groff")
    for name in PAGES:
        said, errors = run("groff", "-man", "-ww", "-Tutf8", "-z", os.path.join("man", name))
        same(said + errors, "", name)


def pages_tell_the_help(root):
    """the synopsis of each program's manual is that of its --help, and the manual has each option and each status that it lists"""
    for name in PROGRAMS:
        said, _ = run(root.programs[name], "--help")
        used = [line.removeprefix("Usage:").strip() for line in said[: said.index("\n\n")].splitlines()]
        text = plain(page(f"fail2ban-{name}.1"))
        shown = [line for line in section(text, "SYNOPSIS").splitlines() if not line.startswith(".")]
        same(shown, used, f"synopsis of fail2ban-{name}")
        options, statuses = words_of_help(said)
        heads = re.findall(r"^\.TP\n(.*)$", section(page(f"fail2ban-{name}.1"), "OPTIONS"), re.MULTILINE)
        same({word for head in heads for word in re.findall(r"(?<!\w)--?\w[\w-]*", plain(head))}, options, f"options of fail2ban-{name}.1")
        in_page = re.findall(r"^(\d+)$", section(text, "EXIT STATUS"), re.MULTILINE)
        same([each for each in statuses if each not in in_page], [], f"statuses that are not in fail2ban-{name}.1")


def units_are_sound(root):
    """the units are read by systemd-analyze verify without a word"""
    needs("systemd-analyze")
    root.make("install", f"PREFIX={root.place}/usr", "DESTDIR=", f"CONFDIR={root.place}/etc/fail2ban", f"ROTATEDIR={root.place}/etc/logrotate.d")
    units = root.at("/usr/lib/systemd/system")
    said, errors = run("systemd-analyze", "verify", "--man=no", *sorted(os.path.join(units, name) for name in os.listdir(units)))
    # What it says of the machine's own units is not asked.
    same([line for line in (said + errors).splitlines() if "fail2ban" in line], [], "units")


COMPLETE = """\
. "$1"
shift
COMP_WORDS=("$@") COMP_CWORD=$(($# - 1))
compopt() { :; }
name=${1##*/}
_${name//-/_}
printf '%s\\n' "${COMPREPLY[@]}"
"""


def offered(*words):
    """What the completion of bash offers in place of the last of these words."""
    said, errors = run("bash", "-c", COMPLETE, "bash", "completion/fail2ban.bash", *words)
    same(errors, "", f"{words}")
    return set(said.split())


def completion_knows_the_words(root):
    """the completion of bash offers the words that each --help lists, and names of filters"""

    for name in PROGRAMS:
        said, _ = run(root.programs[name], "--help")
        options, _ = words_of_help(said)
        missing = {each for each in options if each not in offered(f"fail2ban-{name}", "-")} - {"-h", "-V"}
        same(missing, set(), f"options of fail2ban-{name} that are not offered")
    commands = set(re.findall(r"^  ([a-z]+)", said_of_client(root), re.MULTILINE))
    same(commands - offered("fail2ban-client", ""), set(), "commands that are not offered")
    for verb in ["set", "get"]:
        of_help = set(re.findall(rf"^  {verb} JAIL ([a-z.|]+)", said_of_client(root), re.MULTILINE))
        wanted = {word for words in of_help for word in words.split("|")}
        same(offered("fail2ban-client", verb, "sshd", ""), wanted, f"words behind {verb}")
    same(offered("fail2ban-client", "-s", "/x", "set", "sshd", "un"), {"unbanip"}, "behind -s")
    same(offered("fail2ban-client", "set", "sshd", "idle", ""), {"on", "off"}, "behind idle")
    same(offered("fail2ban-client", "get", "sshd", "banip", ""), {"--with-time"}, "behind banip")
    same(offered("fail2ban-regex", "-o", ""), {"ip", "row"}, "behind -o")
    same(offered("fail2ban-regex", "-c", "conf", "LOG", "postf"), {"postfix", "postfix-sasl"}, "filters")


# A client in place of the real one: it notes its words, and replies as a server with two jails does.
CLIENT = """\
echo "$*" >>"${0%/*}/asked"
case "$*" in
*status) printf 'Status\\n|- Number of jail:\\t2\\n`- Jail list:\\tsshd, web\\n' ;;
*banned) printf 'sshd: 192.0.2.7 2001:db8::7\\nweb: \\n' ;;
*'get sshd banip') printf '192.0.2.7\\n2001:db8::7\\n' ;;
*'get sshd ignoreip') echo '198.51.100.0/24 2001:db8:1::/48' ;;
*) exit 1 ;;
esac
"""


PEOPLE = {"192.0.2.7", "2001:db8::7"}
# Words behind fail2ban-client, what has to be offered in place of the last one, and what the client is asked for that.
ASKED = [
    (["status", ""], {"--all", "sshd", "web"}, "status"),
    (["set", ""], {"sshd", "web"}, "status"),
    (["get", "w"], {"web"}, "status"),
    (["set", "sshd", "unbanip", ""], PEOPLE, "get sshd banip"),
    (["set", "sshd", "unbanip", "192.0.2.7", "20"], {"2001:db8::7"}, "get sshd banip"),
    (["set", "sshd", "delignoreip", ""], {"198.51.100.0/24", "2001:db8:1::/48"}, "get sshd ignoreip"),
    (["unban", ""], {"--all", *PEOPLE}, "banned"),
    (["banned", "192"], {"192.0.2.7"}, "banned"),
    (["unban", "192.0.2.7", "2"], {"2001:db8::7"}, "banned"),
]


def is_asked(root, offers):
    """Each row of what is asked, also with options in front that name the server's socket."""
    root.stand_in("/stand-in/fail2ban-client", CLIENT)
    for options, handed_on in [([], ""), (["-s", "/x"], "-s /x "), (["-q", "-s", "/x"], "-s /x ")]:
        for words, wanted, asked in ASKED:
            same(offers(*options, *words), wanted, f"offered behind {[*options, *words]}")
            same(root.read("/stand-in/asked"), handed_on + asked + "\n", f"asked behind {[*options, *words]}")
            os.remove(root.at("/stand-in/asked"))


def completion_asks_the_server(root):
    """the completion of bash offers jails, who is banned and masks by what the client says of the server that the line names"""
    is_asked(root, lambda *words: offered(root.at("/stand-in/fail2ban-client"), *words))


# In place of what zsh has for completions, with the option that it sets for them: what would be offered is printed, a word a line.
COMPLETE_OF_ZSH = """\
setopt extendedglob
compadd() {
    if [[ $1 == -a ]]; then print -rl -- ${(P)2}; else [[ $1 == -- ]] && shift; print -rl -- "$@"; fi
}
_describe() { print -rl -- ${${(P)2}%%:*} }
_files() { print -r -- A-FILE }
_call_program() { shift; "$@" }
file=$1
shift
words=("$@") CURRENT=$# service=${1:t}
. $file || :
"""


def offered_by_zsh(root, *words):
    """What the completion of zsh offers in place of the last of these words: those of what it hands to zsh that begin as that one does."""
    path = root.at("/stand-in") + ":" + os.environ["PATH"]
    given = ["zsh", "-f", "-c", COMPLETE_OF_ZSH, "zsh", os.path.join(TOP, "completion/fail2ban.zsh"), "fail2ban-client", *words]
    said, errors = run(*given, env={**os.environ, "PATH": path})
    same(errors, "", f"{words}")
    return {word for word in said.split() if word.startswith(words[-1])}


def completion_of_zsh_asks_the_server(root):
    """the completion of zsh offers what that of bash does, by what the client says of the server that the line names"""
    needs("zsh")
    is_asked(root, lambda *words: offered_by_zsh(root, *words))
    commands = set(re.findall(r"^  ([a-z]+)", said_of_client(root), re.MULTILINE))
    options = {"-q", "-s", "--str2sec", "--help", "--version"}
    for words, wanted in [
        ([""], commands | options),
        (["-q", ""], commands | {"-s"}),
        (["-s", "/x", ""], commands | {"-q"}),
        (["-s", ""], {"A-FILE"}),
        (["set", "sshd", "un"], {"unbanip"}),
        (["-q", "-s", "/x", "get", "sshd", "max"], {"maxretry", "maxmatches"}),
        (["set", "sshd", "idle", ""], {"on", "off"}),
        (["get", "sshd", "banip", ""], {"--with-time"}),
    ]:
        same(offered_by_zsh(root, *words), wanted, f"offered behind {words}")


def of_zsh(text, name):
    """The words of a list of the completion of zsh."""
    body = re.search(rf"^  {name}=\((.*?)\)$", text, re.DOTALL | re.MULTILINE).group(1)
    return set(re.findall(r"'([a-z]+):", body) or body.split())


def completion_of_zsh_knows_the_words(root):
    """the completion of zsh has the words that each --help lists, and no others"""
    with open(os.path.join(TOP, "completion/fail2ban.zsh"), encoding="utf-8") as file:
        text = file.read()
    for name in ["server", "regex"]:
        options, _ = words_of_help(run(root.programs[name], "--help")[0])
        function = re.search(rf"^_fail2ban_{name}\(\) {{\n(.*?)^}}", text, re.DOTALL | re.MULTILINE).group(1)
        has = re.findall(r"^    '(-[\w-]+)\[", function, re.MULTILINE) + re.findall(r"'\{(-\w),(--[\w-]+)\}'", function)
        same({word for each in has for word in ([each] if isinstance(each, str) else each)}, options, f"options of fail2ban-{name}")
    said = said_of_client(root)
    options, _ = words_of_help(said)
    same(set(re.search(r"compadd -- (-q .*)", text).group(1).split()), options - {"-h", "-V"}, "options of fail2ban-client")
    same(of_zsh(text, "commands"), set(re.findall(r"^  ([a-z]+)", said, re.MULTILINE)), "commands")
    for verb, name in [("set", "changes"), ("get", "shown")]:
        of_help = re.findall(rf"^  {verb} JAIL ([a-zA-Z.|]+)", said, re.MULTILINE)
        same(of_zsh(text, name), {word for words in of_help for word in words.split("|")}, f"words behind {verb}")


def completion_of_zsh_is_read(root):
    """the completion of zsh is read without a fault"""
    needs("zsh")
    run("zsh", "-n", os.path.join(TOP, "completion", "fail2ban.zsh"))


def said_of_client(root):
    return run(root.programs["client"], "--help")[0]


CHECKS = [
    pages_are_sound,
    pages_tell_the_help,
    pages_say_what_the_help_says,
    page_of_the_configuration,
    pages_have_the_version,
    units_are_sound,
    completion_knows_the_words,
    completion_asks_the_server,
    completion_of_zsh_knows_the_words,
    completion_of_zsh_is_read,
    completion_of_zsh_asks_the_server,
]
