"""Real logs: rotated, cut, replaced, unreadable, and with bytes of any kind."""

import os
import shutil
import time

from room import among_others, failures, same, want, write

READY = "INFO Server ready"

# So long a line may be that is searched, and a pattern that finds one of any length.
LONGEST = 65_536
NAMED = "    ^ name N+ from <ADDR>$\n"

# What has a program that is built with checks not keep what is freed.
KEEPS_NOTHING = "quarantine_size_mb=0:thread_local_quarantine_size_kb=0"

# The filters that ship.
FILTERS = os.path.join(os.path.dirname(os.path.dirname(os.path.dirname(os.path.abspath(__file__)))), "conf/filter.d")


def found(address):
    return f"INFO [web] Found {address}"


def rotated(room):
    return f"INFO [web] rotated {room.log}"


def unread(room):
    return f"WARNING [web] cannot read {room.log}"


def line_becomes_whole(room):
    """a line that is written in pieces is found once, when its line feed comes"""
    line = failures("192.0.2.7")
    with room.server() as server:
        for piece in [line[:7], line[7:-1]]:
            write(room.log, piece, "a")
            server.turn()
            same(server.said(), [READY], "said")
        write(room.log, line[-1:], "a")
        server.wait_said(found("192.0.2.7"))
        server.turn()
        same(server.said(), [READY, found("192.0.2.7")], "said")


def log_is_moved_away(room):
    """a log that is moved away is followed on where a new one stands, however often, and no file is kept open"""
    write(room.log, failures("192.0.2.1", "192.0.2.1"))
    with room.server() as server:
        server.wait_said(found("192.0.2.1"), 2)
        server.turn()
        files = server.files()
        wanted = server.said()
        for number in range(2, 12):
            os.rename(room.log, room.log + ".1")
            server.turn()
            write(room.log, failures(f"192.0.2.{number}", "192.0.2.100"))
            server.wait_said(found(f"192.0.2.{number}"))
            wanted += [rotated(room), found(f"192.0.2.{number}")]
            wanted += [found("192.0.2.100")] if number < 5 else []
            wanted += ["NOTICE [web] Ban 192.0.2.100"] if number == 4 else []
        server.turn()
        same(server.said(), wanted, "said")
        same(server.files(), files, "files that are open")


def log_is_moved_away_often(room):
    """of a log that is moved away five times a second while a hundred lines a second are written no line is found twice, and each in its order"""
    written = 0
    with room.server() as server:
        server.turn()
        begin = time.monotonic()
        while written < 300:
            if written % 20 == 0 and written:
                os.rename(room.log, room.log + ".1")
            write(room.log, failures(f"198.51.{written // 250}.{written % 250 + 1}"), "a")
            written += 1
            time.sleep(max(0.0, begin + written / 100 - time.monotonic()))
        server.wait_said(found("198.51.1.50"))
        said = [line for line in server.said() if "Found" in line]
        wanted = [found(f"198.51.{number // 250}.{number % 250 + 1}") for number in range(300)]
        places = [wanted.index(line) for line in said]
        want(all(one < next_one for one, next_one in zip(places, places[1:])), f"found in this order: {places}")
        return f"{300 - len(said)} of 300 lines were lost, and {server.count(rotated(room))} of 14 rotations were seen"


def log_is_cut(room):
    """a log that is cut in place is read anew, and what was found in it before counts once"""
    write(room.log, failures("192.0.2.1", "192.0.2.2", "192.0.2.3"))
    with room.server() as server:
        server.wait_said(found("192.0.2.3"))
        server.turn()
        os.truncate(room.log, 0)
        server.wait_said(rotated(room))
        write(room.log, failures("192.0.2.4"), "a")
        server.wait_said(found("192.0.2.4"))
        same(server.count(found("192.0.2.1")), 1, "failures of the log that was cut")


def log_is_replaced(room):
    """a log that is replaced by a longer one with another beginning is read from its start"""
    write(room.log, failures("192.0.2.1"))
    with room.server() as server:
        server.wait_said(found("192.0.2.1"))
        server.turn()
        write(room.path("next"), "another beginning\n" + failures("192.0.2.2", "192.0.2.3"))
        os.rename(room.path("next"), room.log)
        server.wait_said(found("192.0.2.3"))
        same(server.said(), [READY, found("192.0.2.1"), rotated(room), found("192.0.2.2"), found("192.0.2.3")], "said")


def log_is_edited(room):
    """a log that is edited to be shorter is another one, and what is left in it is found again"""
    write(room.log, failures("192.0.2.1", "192.0.2.2", "192.0.2.3"))
    with room.server() as server:
        server.wait_said(found("192.0.2.3"))
        server.turn()
        write(room.path("next"), failures("192.0.2.2", "192.0.2.3"))
        os.rename(room.path("next"), room.log)
        server.wait_said(found("192.0.2.3"), 2)
        wanted = [READY, *[found(f"192.0.2.{number}") for number in [1, 2, 3]], rotated(room), found("192.0.2.2"), found("192.0.2.3")]
        same(server.said(), wanted, "said")


def log_is_replaced_by_its_like(room):
    """a log that is replaced by one with the same first 64 bytes that is no shorter is taken for the same"""
    head = "nothing to see in this line, which is always the first one of this log\n"
    write(room.log, head + failures("192.0.2.1"))
    with room.server() as server:
        server.wait_said(found("192.0.2.1"))
        server.turn()
        write(room.path("next"), head + failures("192.0.2.2", "192.0.2.3"))
        os.rename(room.path("next"), room.log)
        server.wait_said(found("192.0.2.3"))
        same(server.said(), [READY, found("192.0.2.1"), found("192.0.2.3")], "said")


def log_is_not_there(room):
    """of a log that is not there nothing is said, and it is found when it comes, and when its directory comes"""
    room.configure(log=room.path("later/web.log"))
    with room.server() as server:
        server.turn()
        os.mkdir(room.path("later"))
        server.turn()
        write(room.path("later/web.log"), failures("192.0.2.7"))
        server.wait_said(found("192.0.2.7"))
        os.rename(room.path("later"), room.path("gone"))
        server.turn()
        same(server.said(), [READY, found("192.0.2.7")], "said")


def log_may_not_be_read(room):
    """a log that may not be read is said, and goes on when it may, with what was written meanwhile"""
    write(room.log, failures("192.0.2.1"))
    write(room.path("probe.log"), "")
    with room.server(**room.as_nobody()) as server:
        server.wait_said(found("192.0.2.1"))
        os.chmod(room.log, 0)
        server.wait_said(unread(room))
        server.wait_said(unread(room), 3)
        if os.geteuid() == 0:
            write(room.log, failures("192.0.2.2"), "a")
        os.chmod(room.log, 0o644)
        write(room.log, failures("192.0.2.3"), "a")
        server.wait_said(found("192.0.2.3"))
        same(server.count(found("192.0.2.2")), 1 if os.geteuid() == 0 else 0, "failures meanwhile")
        same(server.count(found("192.0.2.1")), 1, "failures before")


def log_is_of_another_kind(room):
    """a directory, a pipe, a device and a link in a circle in a log's place are said, and nothing waits for them"""
    places = [
        lambda: os.mkdir(room.log),
        lambda: os.mkfifo(room.log),
        lambda: os.symlink("/dev/zero", room.log),
        lambda: os.symlink(room.log, room.log),
    ]
    for number, place in enumerate(places):
        place()
        with room.server() as server:
            server.wait_said(unread(room), 2)
            server.turn()
            (os.rmdir if number == 0 else os.remove)(room.log)
            server.turn()
            # Each has an address of its own: what one server counts the next one knows.
            write(room.log, failures(f"192.0.2.{number}"))
            server.wait_said(found(f"192.0.2.{number}"))
        os.remove(room.log)


def log_is_a_link(room):
    """a log that is a link is what it leads to, also when it leads elsewhere or nowhere"""
    write(room.path("a"), failures("192.0.2.1"))
    write(room.path("b"), "another beginning\n" + failures("192.0.2.2"))
    os.symlink("a", room.log)
    with room.server() as server:
        server.wait_said(found("192.0.2.1"))
        server.turn()
        os.remove(room.log)
        os.symlink("nowhere", room.log)
        server.turn()
        os.remove(room.log)
        os.symlink("b", room.log)
        server.wait_said(found("192.0.2.2"))
        same(server.said(), [READY, found("192.0.2.1"), rotated(room), found("192.0.2.2")], "said")


def tail_begins_at_the_end(room):
    """a log with tail is followed from where it ends at the first look"""
    room.configure(log=room.log + " tail")
    write(room.log, failures("192.0.2.1"))
    with room.server() as server:
        server.turn()
        write(room.log, failures("192.0.2.2"), "a")
        server.wait_said(found("192.0.2.2"))
        same(server.said(), [READY, found("192.0.2.2")], "said")


def long_log(room):
    """of a log of many looks each line is found once, in its order"""
    addresses = [f"198.51.{number // 250}.{number % 250 + 1}" for number in range(2_000)]
    # Dates that are ahead count as now: on a slow machine the last lines would be too old.
    write(room.log, among_others(failures(*addresses, ahead=3_600), 5))
    with room.server() as server:
        server.wait_said(found(addresses[-1]))
        said = server.said()
        same(len(said), 2_001, "lines")
        want(said[1:] == [found(address) for address in addresses], "the lines are not in the log's order")


def log_is_large(room):
    """a log of more than four GiB is followed at its end"""
    room.configure(log=room.log + " tail")
    write(room.log, "nothing\n")
    os.truncate(room.log, 5 << 30)
    with room.server() as server:
        server.turn()
        write(room.log, "\n" + failures("192.0.2.7"), "a")
        server.wait_said(found("192.0.2.7"))
        same(server.said(), [READY, found("192.0.2.7")], "said")


def named(address, length, ending="\n"):
    """A failure of an address with a name of any length, in so many bytes with the line's ending."""
    front, end = failures("x").split(" ", 1)[0] + " name ", f" from {address}{ending}"
    return front + "N" * (length - len(front) - len(end)) + end


def line_is_long(room):
    """a line of 65,536 bytes is searched, one of more is missed, and the next one found"""
    room.configure(more=NAMED)
    with room.server() as server:
        server.turn()
        for length in [LONGEST, LONGEST + 1, LONGEST + 2]:
            write(room.log, named(f"192.0.2.{length - LONGEST}", length + 1), "a")
        # With the CR that is dropped a line has as many bytes as it comes with.
        write(room.log, named("192.0.2.3", LONGEST + 1, "\r\n") + named("192.0.2.4", LONGEST + 2, "\r\n") + failures("192.0.2.5"), "a")
        server.wait_said(found("192.0.2.5"))
        same(server.said(), [READY, *[found(f"192.0.2.{number}") for number in (0, 3, 5)]], "said")


def line_has_no_end(room):
    """a line of 8,000,000 bytes is one line that is missed, however it comes, and takes no more memory than another"""
    room.configure(more=NAMED)
    line = named("192.0.2.1", 8_000_001)
    with room.server(env={**os.environ, "ASAN_OPTIONS": KEEPS_NOTHING}) as server:
        write(room.log, named("192.0.2.2", LONGEST) + named("192.0.2.3", 4 * LONGEST), "a")
        server.wait_said(found("192.0.2.2"))
        server.turn()
        before = server.peak()
        for piece in [line[:5_000_000], line[5_000_000:-1], "\n"]:
            write(room.log, piece, "a")
            server.turn()
            same(server.said(), [READY, found("192.0.2.2")], "said")
        write(room.log, failures("192.0.2.4"), "a")
        server.wait_said(found("192.0.2.4"))
        want(server.peak() - before < 1 << 20, f"bytes of memory: {server.peak()} at most, behind {before}")
        same(server.said(), [READY, found("192.0.2.2"), found("192.0.2.4")], "said")


def a_name_is_forged(room):
    """who logs in by a name that looks as if another one had failed is banned himself, and nobody in his place"""
    os.mkdir(room.path("conf/filter.d"))
    for name in ["sshd.conf", "common.conf"]:
        shutil.copy(os.path.join(FILTERS, name), room.path("conf/filter.d"))
    room.configure(more=f"\n[sshd]\nenabled = true\nfilter = sshd\nlogpath = {room.path('auth.log')}\nmaxretry = 3\n")
    front = time.strftime("%Y-%m-%dT%H:%M:%S+00:00 host sshd[811]: ", time.gmtime())
    with room.server() as server:
        for text in [
            "Failed password for invalid user x from 198.51.100.1 port 22 ssh2 from 192.0.2.7 port 4242 ssh2",
            "Failed password for 2020-01-01T00:00:00+00:00 x from 198.51.100.1 port 22 ssh2 from 192.0.2.7 port 4242 ssh2",
            "Invalid user x from 198.51.100.1 port 22 from 192.0.2.7 port 4242",
        ]:
            write(room.path("auth.log"), front + text + "\n", "a")
        server.wait_said("NOTICE [sshd] Ban 192.0.2.7")
        same(server.said(), [READY, *["INFO [sshd] Found 192.0.2.7"] * 3, "NOTICE [sshd] Ban 192.0.2.7"], "said")


def bytes_are_no_text(room):
    """an address is found among bytes that are no UTF-8, a NUL and a CR"""
    room.configure(more="    ^ name \\S+ from <ADDR> \\S+$\n")
    now = failures("x").split(" ", 1)[0].encode()
    with room.server() as server:
        write(room.log, now + b" name \xff\xfe\x80 from 192.0.2.1 \xc3\r\n", "a")
        write(room.log, now + b" name a\x00b from 2001:db8::2 \xe2\x82\n", "a")
        server.wait_said(found("192.0.2.1"))
        server.wait_said(found("2001:db8::2"))


def bans_begin_and_end(room):
    """three failures ban an address once, later ones of it are not said, and the ban ends"""
    room.configure(bantime=5)
    with room.server() as server:
        write(room.log, failures(*["192.0.2.7"] * 5), "a")
        server.wait_said("NOTICE [web] Unban 192.0.2.7")
        wanted = [READY, *[found("192.0.2.7")] * 3, "NOTICE [web] Ban 192.0.2.7", "NOTICE [web] Unban 192.0.2.7"]
        same(server.said(), wanted, "said")


CHECKS = [
    line_becomes_whole,
    log_is_moved_away,
    log_is_moved_away_often,
    log_is_cut,
    log_is_replaced,
    log_is_edited,
    log_is_replaced_by_its_like,
    log_is_not_there,
    log_may_not_be_read,
    log_is_of_another_kind,
    log_is_a_link,
    tail_begins_at_the_end,
    long_log,
    log_is_large,
    line_is_long,
    line_has_no_end,
    a_name_is_forged,
    bytes_are_no_text,
    bans_begin_and_end,
]
