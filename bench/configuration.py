"""Makes configurations, has the program read them, each on one core, and prints how long each took until it was definitions of jails.

    configuration.py PROGRAM [DIRECTORY]
"""

import os
import subprocess
import sys
import tempfile

FILES = 4096
BYTES = 16777216
JAILS = 256


def jail(number, filter_name):
    """An enabled jail with a log, a filter and an action, and some items that stand in for those of a real one."""
    return (
        f"[j{number}]\nenabled = true\nport = {number}\nfilter = {filter_name}[mode=normal]\nlogpath = /var/log/j{number}.log\n"
        f'action = %(action_)s\n'
    )


def filler(size, name):
    """Items of a section that fill it up to so many bytes."""
    line = "{name}x{number:04} = a value of thirty-three letters\n"
    count = size // len(line.format(name=name, number=0))
    return "".join(line.format(name=name, number=number) for number in range(count))


def common():
    """What all trees have: an action, and the defaults of jails."""
    return {
        "action.d/note.conf": "[Definition]\nactionban = note ban <ip> <port> <name>\nactionunban = note unban <ip> <port>\n[Init]\nport = any\n",
        "jail.conf": '[DEFAULT]\nbanaction = note\naction_ = %(banaction)s[port="%(port)s"]\nmaxretry = 3\nfindtime = 10m\n',
    }


def filter_of(words):
    return "[Definition]\n_daemon = web\nfailregex = ^<_daemon>: denied <HOST>$\n ^<_daemon>: <HOST> failed$\n" + words


def in_jails(jails):
    """So many files and bytes as there may be, in files of jails, of which so many are enabled."""
    tree = common()
    tree["filter.d/web.conf"] = filter_of("")
    left = FILES - len(tree)
    size = (BYTES - sum(len(content) for content in tree.values())) // left - 200
    for number in range(left):
        text = jail(number, "web") if number < jails else "[DEFAULT]\n"
        tree[f"jail.d/{number:04}.conf"] = text + filler(size - len(text), f"n{number:04}")
    return tree


def in_filters():
    """At the limits, in a filter of its own for each jail, with what it includes."""
    tree = common()
    tree["jail.local"] = "".join(jail(number, f"f{number:03}") for number in range(JAILS))
    left = FILES - len(tree)
    size = (BYTES - sum(len(content) for content in tree.values())) // left - 200
    more = left // JAILS - 1
    for number in range(JAILS):
        names = [f"f{number:03}-{part:02}.conf" for part in range(more)]
        head = "[INCLUDES]\nbefore = " + "\n ".join(names) + "\n"
        tree[f"filter.d/f{number:03}.conf"] = head + filter_of("")
        for part, name in enumerate(names):
            tree[f"filter.d/{name}"] = "[Definition]\n" + filler(size - 14, f"n{part:02}")
    return tree


def shared(size):
    """One filter of so many bytes, which all jails name."""
    tree = common()
    tree["jail.local"] = "".join(jail(number, "web") for number in range(JAILS))
    tree["filter.d/web.conf"] = filter_of(filler(size, "n"))
    return tree


def masks(count):
    """A jail that never bans so many addresses."""
    listed = "".join(f" 10.{number >> 16}.{number >> 8 & 255}.{number & 255}/32\n" for number in range(count))
    return {"jail.conf": "[j]\nenabled = true\nignoreip =\n" + listed}


def of_directory(top, enabled):
    """The files of a directory that are a configuration's, with each jail enabled, or with those that its files enable."""
    tree = {}
    for place in [""] + sorted(name for name in os.listdir(top) if os.path.isdir(os.path.join(top, name))):
        for name in sorted(os.listdir(os.path.join(top, place))):
            path = os.path.join(place, name)
            if name.endswith((".conf", ".local")) and os.path.isfile(os.path.join(top, path)):
                tree[path] = open(os.path.join(top, path), encoding="utf-8").read()
    if enabled:
        tree["jail.d/zz.local"] = "[DEFAULT]\nenabled = true\n"
    return tree


def measure(program, name, tree):
    with tempfile.NamedTemporaryFile("w", encoding="utf-8", newline="") as bundle:
        for path, content in tree.items():
            bundle.write(path + "\x1f" + content + "\x1e")
        bundle.flush()
        done = subprocess.run(
            [program, bundle.name], stdout=subprocess.PIPE, text=True, check=True, preexec_fn=lambda: os.sched_setaffinity(0, {0})
        )
    said, _, took = done.stdout.strip().rpartition("|")
    size = sum(len(content.encode()) for content in tree.values()) / 1048576
    print(f"| {name} | {size:.2f} | {said} | {int(took) / 1000:.1f} |", flush=True)


def main(program, directory=None):
    print("| configuration | MiB | comes to | ms |\n|---|---|---|---|")
    for jails in (1, 16, 64, JAILS):
        measure(program, f"4,096 files of jails, {jails} of them enabled", in_jails(jails))
    measure(program, "4,096 files of filters, one with 14 includes for each jail", in_filters())
    measure(program, "a filter of 60 KiB that all jails name", shared(61440))
    measure(program, "a filter of 1 MiB that all jails name", shared(1048576))
    measure(program, "a jail with 100,000 masks in ignoreip", masks(100000))
    if directory:
        measure(program, "the directory", of_directory(directory, False))
        measure(program, "the directory, all jails enabled", of_directory(directory, True))


main(*sys.argv[1:])
