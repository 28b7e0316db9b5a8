"""Which files of a real directory are a configuration, and what they may be."""

import os

from room import JAIL, failures, same, write

READY = ["INFO Server ready"]
TOO_LARGE = ["ERROR Configuration too large"]


def most_files(room):
    """4,096 files are a configuration, 4,097 are too large"""
    for number in range(4):
        os.mkdir(room.path(f"conf/{number}"))
    for number in range(4_094):
        write(room.path(f"conf/{number % 4}/{number}.conf"), "")
    room.ends(0, READY, "--conf", room.conf, "--turns", "1")
    write(room.path("conf/more.txt"), "")
    os.mkdir(room.path("conf/0/deep"))
    write(room.path("conf/0/deep/more.conf"), "")
    room.ends(0, READY, "--conf", room.conf, "--turns", "1")
    write(room.path("conf/more.local"), "")
    room.ends(10, TOO_LARGE, "--conf", room.conf)


def most_bytes(room):
    """16,777,216 bytes are a configuration, one more is too large"""
    left = 16_777_216 - sum(os.path.getsize(room.path(f"conf/{name}.conf")) for name in ("jail", "fail2ban"))
    # It is read and counted, and then passed over: no jail names it.
    write(room.path("conf/other.conf"), b"#" * left)
    room.ends(0, READY, "--conf", room.conf, "--turns", "1")
    write(room.path("conf/other.conf"), b"#" * (left + 1))
    room.ends(10, TOO_LARGE, "--conf", room.conf)


def files_of_other_kinds(room):
    """pipes, directories, links to nowhere and names that are no text are passed over, and links to files are read"""
    os.mkfifo(room.path("conf/pipe.conf"))
    os.mkdir(room.path("conf/folder.conf"))
    os.symlink("nowhere", room.path("conf/dangling.conf"))
    os.symlink("itself.conf", room.path("conf/itself.conf"))
    write(os.fsencode(room.path("conf/")) + b"\xff.conf", "this is no configuration")
    os.rename(room.path("conf/jail.conf"), room.path("elsewhere"))
    os.symlink(room.path("elsewhere"), room.path("conf/jail.conf"))
    with room.server() as server:
        write(room.log, failures("192.0.2.7"), "a")
        server.wait_said("INFO [web] Found 192.0.2.7")


def later_file_counts(room):
    """jail.local and the files of jail.d are laid over jail.conf, in byte order of their names"""
    os.mkdir(room.path("conf/jail.d"))
    write(room.path("conf/jail.d/9.conf"), "[web]\nmaxretry = 2\n")
    write(room.path("conf/jail.d/10.conf"), "[web]\nmaxretry = 4\n")
    with room.server() as server:
        write(room.log, failures("192.0.2.7", "192.0.2.7"), "a")
        server.wait_said("NOTICE [web] Ban 192.0.2.7")


def place_is_written_otherwise(room):
    """the directory may be relative, end in a slash, and have blanks and other letters in its name"""
    os.rename(room.conf, room.path("mein Ort für Jails"))
    for place in ["mein Ort für Jails", "mein Ort für Jails/", "./mein Ort für Jails/../mein Ort für Jails"]:
        room.ends(0, READY, "--conf", place, "--turns", "1", cwd=room.place)


def text_is_no_utf8(room):
    """a file that is no UTF-8 is refused with the place of its first bad byte"""
    write(room.path("conf/jail.local"), b"[web]\n\xe9")
    room.ends(4, ["ERROR Configuration refused: jail.local [] : NotUtf8 6"], "--conf", room.conf)


def wildcard_takes_64(room):
    """a wildcard stands for its first 64 names in byte order, and names that are no text are none of them"""
    os.mkdir(room.path("logs"))
    write(os.fsencode(room.path("logs/")) + b"\xff.log", "")
    write(room.path("logs/0.txt"), "")
    for number in range(100, 170):
        write(room.path(f"logs/{number}.log"), failures(f"192.0.2.{number}"))
    room.configure(log=room.path("logs/*.log"))
    with room.server() as server:
        server.turn()
        found = [f"INFO [web] Found 192.0.2.{number}" for number in range(100, 164)]
        same(server.said(), READY + found, "said")


def wildcard_has_no_directory(room):
    """of a wildcard's directory that is not there nothing is said, and of one that may not be read one line"""
    room.configure(log=room.path("logs/*.log"))
    how = room.as_nobody()
    room.ends(0, READY, "--conf", room.conf, "--turns", "2", **how)
    os.mkdir(room.path("logs"))
    os.chmod(room.path("logs"), 0)
    path = room.path("logs/*.log")
    status, said, _errors = room.run("--conf", room.conf, "--turns", "2", **how)
    said = [line.split(" ", 1)[1] for line in said.splitlines()]
    same((status, said), (0, [f"WARNING [web] cannot read {path}", *READY]), "said")


def more_jails(room, count):
    """So many jails more, which all follow the log of the first one, with patterns that are quickly built."""
    text = JAIL.format(log=room.log, maxretry=3, bantime=60).replace("= Epoch", "= {NONE}").replace("^ fail from <ADDR>$", "fail from <IP4>$")
    return "".join("\n" + text.replace("[web]", f"[web{number}]") for number in range(count))


def most_jails(room):
    """256 jails are run, each with what is found in a log of all of them, and 257 are refused"""
    room.configure(more=more_jails(room, 254))
    write(room.log, failures("192.0.2.7"))
    status, said, errors = room.run("--conf", room.conf, "--turns", "1")
    same((status, errors), (0, ""), "end")
    wanted = ["INFO Server ready", "INFO [web] Found 192.0.2.7", *[f"INFO [web{number}] Found 192.0.2.7" for number in range(254)]]
    same([line.split(" ", 1)[1] for line in said.splitlines()], wanted, "said")
    room.configure(more=more_jails(room, 255))
    room.ends(4, ["ERROR Configuration refused: jail.conf [probe] enabled: TooMany"], "--conf", room.conf)


def many_masks(room):
    """a jail has 100,000 masks that it never bans, and an address of none of them is found"""
    masks = [f" 10.{number // 65_536}.{number // 256 % 256}.{number % 256}/32\n" for number in range(100_000)]
    os.mkdir(room.path("conf/jail.d"))
    write(room.path("conf/jail.d/masks.conf"), "[web]\nignoreip =\n" + "".join(masks))
    write(room.log, failures("10.1.134.159", "192.0.2.7", "10.0.0.0"))
    room.ends(0, [*READY, "INFO [web] Found 192.0.2.7"], "--conf", room.conf, "--turns", "1")


def many_sections_and_items(room):
    """a thousand sections of jails that are off, and a filter of a thousand items, are read"""
    os.mkdir(room.path("conf/jail.d"))
    os.mkdir(room.path("conf/filter.d"))
    write(room.path("conf/filter.d/many.conf"), "[Definition]\n" + "".join(f"item{number} = value\n" for number in range(1_000)))
    sections = "".join(f"[off{number}]\nport = {number}\n" for number in range(1_000))
    write(room.path("conf/jail.d/many.conf"), sections + "[web]\nfilter = many\n")
    write(room.log, failures("192.0.2.7"))
    room.ends(0, [*READY, "INFO [web] Found 192.0.2.7"], "--conf", room.conf, "--turns", "1")


CHECKS = [
    most_files,
    most_bytes,
    most_jails,
    many_masks,
    many_sections_and_items,
    files_of_other_kinds,
    later_file_counts,
    place_is_written_otherwise,
    text_is_no_utf8,
    wildcard_takes_64,
    wildcard_has_no_directory,
]
