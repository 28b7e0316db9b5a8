"""A configuration that is read again while the server runs: what it changes, what stays, and what comes of one that is not taken."""

import os
import signal
import threading
import time

from client import PING
from clients import NOTES, OTHER, ask, connected, hear, request, socket_of, wait_closed
from commands import ADDRESS, act, ban, children, content, lives, noted_process, wait_done
from journal import both, kill
from room import JAIL, PROBE, SERVER, Failed, failures, same, wait_for, want, write

READY = "INFO Server ready"
RELOADED = "INFO Reloaded"
BAN = f"NOTICE [web] Ban {ADDRESS}"
UNBAN = f"NOTICE [web] Unban {ADDRESS}"

# One more jail beside the others.
MAIL = JAIL.replace("[web]", "[{name}]")


def found(address=ADDRESS, jail="web"):
    return f"INFO [{jail}] Found {address}"


def reload(room, accepted=True, reply="OK"):
    """Has the configuration read again, and wants this to come of it, however long it takes: the client waits for half a minute."""
    with connected(room) as (conn,):
        conn.sendall(request("reload"))
        same(hear(conn), (accepted, reply), "reply")


def add_mail(room, log="mail.log", maxretry=3, name="mail"):
    """Gives the room one more jail, behind the others."""
    write(room.path("conf/jail.conf"), "\n" + MAIL.format(name=name, log=room.path(log), maxretry=maxretry, bantime=600), "a")


def without_web(room):
    """Leaves the room the jail of the probes alone."""
    write(room.path("conf/jail.conf"), PROBE.format(log=room.path("probe.log")))


# ---- what changes


def a_jail_is_added(room):
    """a jail that a configuration has more is there at once, its log is read from the beginning, and it bans"""
    write(room.path("mail.log"), failures(*[ADDRESS] * 3))
    with room.server() as server:
        ask(room, 1, "Sorry but the jail 'mail' does not exist", "status", "mail")
        add_mail(room)
        ask(room, 0, "OK", "reload")
        ask(room, 0, "Status\n|- Number of jail:\t3\n`- Jail list:\tweb, probe, mail", "status")
        server.wait_said(f"NOTICE [mail] Ban {ADDRESS}")
        same(server.said(), [READY, RELOADED, *[found(jail="mail")] * 3, f"NOTICE [mail] Ban {ADDRESS}"], "said")
        write(room.log, failures(OTHER), "a")
        server.wait_said(found(OTHER))


def a_jail_goes(room):
    """a jail that a configuration has no more is gone with its bans, which its action takes back by its commands, and its log is let be"""
    act(room, bantime=600, **NOTES)
    with room.server() as server:
        wait_done(room, ["start"])
        ban(room)
        wait_done(room, ["start", f"ban {ADDRESS}"])
        without_web(room)
        reload(room)
        wait_done(room, ["start", f"ban {ADDRESS}", f"unban {ADDRESS}", "stop"])
        ask(room, 1, "Sorry but the jail 'web' does not exist", "status", "web")
        ask(room, 0, "probe: ", "banned")
        write(room.log, failures(OTHER), "a")
        server.turn()
        # A configuration tells nothing of the bans that go with their jails.
        same(server.said(), [READY, *[found()] * 3, BAN, RELOADED], "said")


def a_jail_comes_again(room):
    """a jail that was gone and comes again begins anew, at the beginning of its log and with nobody banned"""
    act(room, bantime=600, **NOTES)
    with room.server() as server:
        ban(room)
        wait_done(room, ["start", f"ban {ADDRESS}"])
        without_web(room)
        reload(room)
        wait_done(room, ["start", f"ban {ADDRESS}", f"unban {ADDRESS}", "stop"])
        act(room, bantime=600, **NOTES)
        reload(room)
        server.wait_said(BAN, 2)
        same(server.count(found()), 6, "failures, each once for each of the two jails")
        wait_done(room, ["start", f"ban {ADDRESS}", f"unban {ADDRESS}", "stop", "start", f"ban {ADDRESS}"])
        ask(room, 0, ADDRESS, "get", "web", "banip")


def limits_are_others(room):
    """another maxretry or findtime is what counts from then on, and what failed before is forgotten"""
    with room.server() as server:
        write(room.log, failures(ADDRESS, ADDRESS), "a")
        server.wait_said(found(), 2)
        room.configure(maxretry=2)
        reload(room)
        ask(room, 0, "2", "get", "web", "maxretry")
        write(room.log, failures(ADDRESS), "a")
        server.wait_said(found(), 3)
        server.turn()
        same(server.count(BAN), 0, "bans by what was forgotten")
        write(room.log, failures(ADDRESS), "a")
        server.wait_said(BAN)
        write(room.log, failures(OTHER), "a")
        server.wait_said(found(OTHER))
        # An item that stands there twice has the last of its values.
        room.configure(maxretry=2, more="findtime = 1h\n")
        reload(room)
        ask(room, 0, "3600", "get", "web", "findtime")
        write(room.log, failures(OTHER, ahead=-1800), "a")
        server.wait_said(found(OTHER), 2)
        server.turn()
        same(server.count(f"NOTICE [web] Ban {OTHER}"), 0, "bans by what was forgotten")
        write(room.log, failures(OTHER), "a")
        server.wait_said(f"NOTICE [web] Ban {OTHER}")


def bantime_is_another(room):
    """another bantime is that of bans to come, and bans that stand end when they would have"""
    room.configure(bantime=600)
    with room.server() as server:
        ban(room)
        server.wait_said(BAN)
        room.configure(bantime=2)
        reload(room)
        ask(room, 0, "2", "get", "web", "bantime")
        ban(room, OTHER)
        server.wait_said(f"NOTICE [web] Unban {OTHER}")
        lasted = server.moment(f"NOTICE [web] Unban {OTHER}") - server.moment(f"NOTICE [web] Ban {OTHER}")
        want(2 <= lasted < 600, f"a ban of 2 s lasted {lasted} s")
        ask(room, 0, ADDRESS, "get", "web", "banip")
        same(server.count(UNBAN), 0, "ends of the ban that stands")


def addresses_are_ignored(room):
    """an address of ignoreip is found no more, and is found again where it is there no more"""
    with room.server() as server:
        write(room.log, failures(ADDRESS), "a")
        server.wait_said(found())
        room.configure(more="ignoreip = 192.0.2.0/29\n")
        reload(room)
        ask(room, 0, "192.0.2.0/29", "get", "web", "ignoreip")
        write(room.log, failures(ADDRESS, OTHER), "a")
        server.wait_said(found(OTHER))
        same(server.count(found()), 1, "failures of one that is ignored")
        room.configure()
        reload(room)
        # The limits are as they were, so what counted before counts on.
        write(room.log, failures(ADDRESS, ADDRESS), "a")
        server.wait_said(BAN)
        same(server.count(found()), 3, "failures")


def an_action_is_another(room):
    """an action with other commands takes its bans back and stops by those that it had, and then starts and bans by the new ones"""
    act(room, bantime=600, **NOTES)
    with room.server() as server:
        ban(room)
        sooner = ["start", f"ban {ADDRESS}"]
        wait_done(room, sooner)
        act(room, bantime=600, **{name: text.replace("echo", "echo new") for name, text in NOTES.items()})
        reload(room)
        sooner += [f"unban {ADDRESS}", "stop", "new start", f"new ban {ADDRESS}"]
        wait_done(room, sooner)
        # An action more comes up beside it with the bans that stand, and the other one stays as it is.
        write(room.path("conf/action.d/more.conf"), f"[Definition]\nactionban = echo more <ip> >> {room.path('done')}\n")
        room.configure(bantime=600, more="action = note\n    more\n")
        reload(room)
        sooner += [f"more {ADDRESS}"]
        wait_done(room, sooner)
        ask(room, 0, "note\nmore", "get", "web", "actions")
        ask(room, 0, "1", "unban", ADDRESS)
        wait_done(room, [*sooner, f"new unban {ADDRESS}"])
        same(server.said(), [READY, *[found()] * 3, BAN, RELOADED, RELOADED, UNBAN], "said")


def patterns_are_others(room):
    """lines are found by the patterns of the configuration that was taken last"""
    with room.server() as server:
        now = int(time.time())
        write(room.log, f"{now} fail from {ADDRESS}\n{now} no entry for {OTHER}\n", "a")
        server.wait_said(found())
        server.turn()
        with open(room.path("conf/jail.conf"), encoding="utf-8") as file:
            text = file.read()
        write(room.path("conf/jail.conf"), text.replace("^ fail from <ADDR>$", "^ no entry for <ADDR>$", 1))
        reload(room)
        ask(room, 0, "^ no entry for <ADDR>$", "get", "web", "failregex")
        write(room.log, f"{now} fail from {ADDRESS}\n{now} no entry for {OTHER}\n", "a")
        server.wait_said(found(OTHER))
        server.turn()
        same(server.said(), [READY, found(), RELOADED, found(OTHER)], "said")


def what_was_set_goes(room):
    """what a client has set of a jail is what the configuration has again, where its files are the same too"""
    room.configure(more="ignoreip = 192.0.2.200\n")
    with room.server() as server:
        for words in [("maxretry", "1"), ("bantime", "-1"), ("findtime", "5"), ("addignoreip", ADDRESS), ("idle", "on")]:
            status, _, _ = room.run("-s", socket_of(room), "set", "web", *words, program=room.client)
            same(status, 0, words)
        write(room.log, failures(ADDRESS, ADDRESS), "a")
        server.turn()
        same(server.said(), [READY], "said of an idle jail")
        reload(room)
        for item, reply in [("maxretry", "3"), ("bantime", "60"), ("findtime", "600"), ("ignoreip", "192.0.2.200")]:
            ask(room, 0, reply, "get", "web", item)
        # The jail is idle no more, and goes on with what was written meanwhile.
        server.wait_said(found(), 2)
        server.turn()
        same(server.said(), [READY, RELOADED, found(), found()], "said")


# ---- what stays


def a_log_goes_on(room):
    """a log that stays goes on behind what was read of it, what failed before still counts, and a rotation is seen as ever"""
    write(room.log, failures(ADDRESS))
    with room.server() as server:
        server.wait_said(found())
        server.turn()
        room.configure(bantime=601)
        reload(room)
        server.turn()
        same(server.count(found()), 1, "failures, each once")
        os.rename(room.log, room.log + ".1")
        write(room.log, failures(OTHER, ADDRESS, ADDRESS))
        server.wait_said(BAN)
        same(server.said(), [READY, found(), RELOADED, f"INFO [web] rotated {room.log}", found(OTHER), found(), found(), BAN], "said")


def half_a_line_stays(room):
    """a line whose beginning was read before a reload and whose end comes behind it is found once"""
    line = failures(ADDRESS)
    with room.server() as server:
        for number, piece in enumerate([line[:7], line[7:-4], line[-4:-1]]):
            write(room.log, piece, "a")
            server.turn()
            room.configure(bantime=600 + number)
            reload(room)
            server.turn()
        same(server.count(found()), 0, "failures in a line that is not whole")
        write(room.log, line[-1:] + failures(OTHER), "a")
        server.wait_said(found(OTHER))
        same(server.said(), [READY, *[RELOADED] * 3, found(), found(OTHER)], "said")


def no_line_is_lost_or_found_twice(room):
    """of a log that is written while the configuration is read again and again each line is found once"""
    addresses = [f"198.51.{number // 250}.{number % 250 + 1}" for number in range(1_000)]

    def writes():
        # In pieces that end anywhere in a line.
        text = "".join(failures(address) for address in addresses)
        for place in range(0, len(text), 97):
            write(room.log, text[place : place + 97], "a")
            time.sleep(0.005)

    with room.server() as server:
        writer = threading.Thread(target=writes)
        writer.start()
        count = 0
        while writer.is_alive() or count < 5:
            count += 1
            room.configure(bantime=60 + count)
            reload(room)
        writer.join()
        server.wait_said(found(addresses[-1]))
        same(server.count(RELOADED), count, "reloads")
        same([line for line in server.said() if "Found" in line], [found(address) for address in addresses], "found")


def bans_stay_and_end(room):
    """bans that stand stay, no command is run for them again, and they end in time"""
    act(room, bantime=4, **NOTES)
    with room.server() as server:
        ban(room)
        wait_done(room, ["start", f"ban {ADDRESS}"])
        act(room, bantime=600, **NOTES)
        reload(room)
        server.wait_said(UNBAN)
        wait_done(room, ["start", f"ban {ADDRESS}", f"unban {ADDRESS}"])
        lasted = server.moment(UNBAN) - server.moment(BAN)
        want(4 <= lasted < 600, f"a ban of 4 s lasted {lasted} s")


def ban_to_the_end(room, server):
    """Has an address banned, and waits until no command runs any more."""
    ban(room)
    wait_done(room, ["start", f"ban {ADDRESS}"])
    wait_for(lambda: not children(server), "the end of all commands")
    server.turn()


def nothing_is_another(room):
    """a reload that changes nothing is answered and said, runs no command, and writes nothing"""
    act(room, bantime=600, **NOTES)
    with room.server() as server:
        ban_to_the_end(room, server)
        # A configuration is the same whatever its files look like.
        write(room.path("conf/jail.local"), "# nothing\n[web]\nmaxretry = 3\n")
        slots = both(room)
        for _ in range(3):
            reload(room)
        same(both(room), slots, "the journal")
        server.turn()
        same(server.said(), [READY, *[found()] * 3, BAN, *[RELOADED] * 3], "said")
        same(content(room, "done"), f"start\nban {ADDRESS}\n", "done")


def the_socket_stays(room):
    """the socket and the journal stay where the start had them, whatever the configuration says by then"""
    with room.server() as server:
        write(room.path("conf/fail2ban.conf"), SERVER.format(place=room.path("elsewhere")))
        reload(room)
        ask(room, 0, "Server replied: pong", "ping")
        ban(room)
        server.wait_said(BAN)
        want(not os.path.lexists(room.path("elsewhere")), "something was made elsewhere")
        want(any(both(room)), "the journal is gone")


# ---- one that is not taken


def a_configuration_is_not_taken(room):
    """a configuration that is refused changes nothing: the client is told why, with status 1, and the server says so and goes on"""
    act(room, bantime=600, **NOTES)
    with room.server() as server:
        ban_to_the_end(room, server)
        _, before, _ = room.run("-s", socket_of(room), "status", "web", program=room.client)
        slots, said = both(room), server.said()
        big = room.path("conf/big.conf")
        for how, why in [
            ({"bantime": "soon"}, "Configuration refused: jail.conf [web] bantime: BadTime"),
            ({"more": "no delimiter\n"}, "Configuration refused: jail.conf [] : NoDelimiter 10"),
            ({"more": "filter = none\n"}, "Configuration refused: filter.d/none.conf [web] filter: MissingFile"),
            ({"more": "[INCLUDES]\nbefore = none.conf\n"}, "Configuration refused: jail.conf [] : MissingInclude none.conf"),
            ({"more": "    (<ADDR>\n"}, "Pattern refused: web failregex 2 Syntax"),
            ({"more": "    <ADDR>\\pL{900}\n"}, "Pattern refused: web failregex 2 TooBig"),
        ]:
            room.configure(**how)
            reload(room, False, why)
            # A start is refused with the same text.
            room.ends(11 if "Pattern" in why else 4, [f"ERROR {why}"], "--conf", room.conf)
            said += [f"ERROR {why}"]
            same(server.said(), said, "said")
        room.configure()
        write(big, b"#" * (16 << 20))
        reload(room, False, "Configuration too large")
        os.remove(big)
        said += ["ERROR Configuration too large"]
        same((server.said(), both(room)), (said, slots), "said, and the journal")
        ask(room, 0, before[:-1], "status", "web")
        ban(room, OTHER)
        wait_done(room, ["start", f"ban {ADDRESS}", f"ban {OTHER}"])
        act(room, bantime=601, **NOTES)
        reload(room)
        ask(room, 0, "601", "get", "web", "bantime")


def a_configuration_is_not_read(room):
    """a configuration that is not there, or may not be read, is not taken, and the next one that may is"""
    with room.server(**room.as_nobody()) as server:
        os.rename(room.conf, room.path("away"))
        ask(room, 1, "Configuration not read", "reload")
        os.rename(room.path("away"), room.conf)
        room.configure(maxretry=1)
        os.chmod(room.path("conf/jail.conf"), 0)
        ask(room, 1, "Configuration not read", "reload")
        os.chmod(room.path("conf/jail.conf"), 0o644)
        same(server.said(), [READY, *["ERROR Configuration not read"] * 2], "said")
        ask(room, 0, "3", "get", "web", "maxretry")
        reload(room)
        write(room.log, failures(ADDRESS), "a")
        os.chmod(room.log, 0o644)
        server.wait_said(BAN)


def the_journal_has_no_room(room):
    """a configuration for which the journal has no room ends the server, as any input does, and the client gets no reply"""
    with room.server("--journal-limit", "2048") as server, connected(room) as (conn,):
        for number in range(24):
            add_mail(room, name=f"mail{number}")
        conn.sendall(request("reload"))
        wait_closed(conn)
        server.wait_ended(7)
        want(server.said()[1].startswith("ERROR journal full: "), server.said())
        same(len(server.said()), 2, "lines")
    room.configure()
    with room.server("--journal-limit", "2048"):
        ask(room, 0, "Status\n|- Number of jail:\t2\n`- Jail list:\tweb, probe", "status")


# ---- who asks, and when


def reloads_come_in_a_row(room):
    """reloads that one client sends at once are answered one after the other, in order with what it asks between them"""
    with room.server() as server, connected(room) as (conn,):
        room.configure(maxretry=7)
        asked = [request("reload"), request("get", "web", "maxretry"), PING, request("reload"), request("reload"), request("reload", "all"), request("reload")]
        conn.sendall(b"".join(asked))
        wanted = [(True, "OK"), (True, "7"), (True, "pong"), (True, "OK"), (True, "OK"), (False, "Wrong number of words"), (True, "OK")]
        same([hear(conn) for _ in asked], wanted, "replies")
        same(server.said(), [READY, *[RELOADED] * 4], "said")


def clients_ask_at_once(room):
    """clients that ask for a reload at once are all answered, and for one that leaves before its answer the configuration is read all the same"""
    with room.server() as server, connected(room, 5) as conns:
        room.configure(maxretry=7)
        server.signal(signal.SIGSTOP)
        for conn in conns:
            conn.sendall(request("reload") + request("get", "web", "maxretry"))
        server.signal(signal.SIGCONT)
        for conn in conns:
            same([hear(conn), hear(conn)], [(True, "OK"), (True, "7")], "replies")
        same(server.said(), [READY, *[RELOADED] * 5], "said")
        room.configure(maxretry=9)
        conns[0].sendall(request("reload"))
        conns[0].close()
        server.wait_said(RELOADED, 6)
        ask(room, 0, "9", "get", "web", "maxretry")


def who_is_behind_is_served(room):
    """who is behind a client that asks for a reload is served in the same turn, by the new configuration and before its logs are looked at"""
    with room.server() as server, connected(room, 2) as (first, second):
        for number in range(5):
            for conn in [first, second]:
                conn.sendall(PING)
                same(hear(conn), (True, "pong"), "reply")
            log, jail = f"{number}.log", f"mail{number}"
            write(room.path(log), failures(ADDRESS))
            add_mail(room, log, name=jail)
            # Both ask before the server goes on: but where it was stopped between the two, which is tried again, the second one is behind the first.
            time.sleep(0.1)
            server.signal(signal.SIGSTOP)
            first.sendall(request("reload"))
            second.sendall(request("status", jail))
            server.signal(signal.SIGCONT)
            same(hear(first), (True, "OK"), "reply")
            accepted, text = hear(second)
            server.wait_said(found(jail=jail))
            if accepted:
                want("Total failed:\t0\n" in text, f"of a log that was not looked at yet: {text!r}")
                return
        raise Failed("nobody was served behind a reload in its turn")


def a_stop_comes_behind_a_reload(room):
    """a stop that stands behind a reload takes down what the reload brought up, and a reload behind it is refused"""
    act(room, bantime=600, **NOTES)
    with room.server() as server, connected(room) as (conn,):
        ban(room)
        wait_done(room, ["start", f"ban {ADDRESS}"])
        act(room, bantime=600, **{**NOTES, "actionban": "echo again <ip> >> {done}"})
        conn.sendall(request("reload") + request("stop") + request("reload"))
        same([hear(conn) for _ in range(3)], [(True, "OK"), (True, "Shutdown begun"), (False, "Server is stopping")], "replies")
        server.wait_ended(0)
        same(server.said()[5:], [RELOADED, "INFO Stopping"], "said")
        unban = f"unban {ADDRESS}"
        wait_done(room, ["start", f"ban {ADDRESS}", unban, "stop", "start", f"again {ADDRESS}", unban, "stop"])


def a_server_is_killed_behind_a_reload(room):
    """a server that is killed behind a reload has taken it: the next one goes on by that configuration, and runs no command again that ended"""
    with room.server() as server:
        add_mail(room, maxretry=1)
        reload(room)
        kill(server)
    slots = both(room)
    with room.server() as server:
        # The start changes nothing: what the files say is the state already.
        same(both(room), slots, "the journal")
        write(room.path("mail.log"), failures(ADDRESS), "a")
        server.wait_said(f"NOTICE [mail] Ban {ADDRESS}")
        act(room, bantime=600, **NOTES)
        reload(room)
        ban_to_the_end(room, server)
        kill(server)
    with room.server() as server:
        server.turn()
        same(content(room, "done"), f"start\nban {ADDRESS}\n", "done")
        ask(room, 0, f"web: {ADDRESS}\nprobe: ", "banned")
        without_web(room)
        reload(room)
        kill(server)
    with room.server():
        # What ran as the server was killed is run again.
        wait_for(lambda: content(room, "done").endswith("stop\n"), "the end of the action", lambda: content(room, "done"))
        lines = list(dict.fromkeys(content(room, "done").splitlines()))
        same(lines, ["start", f"ban {ADDRESS}", f"unban {ADDRESS}", "stop"], "done, each once")
        ask(room, 0, "probe: ", "banned")


# ---- what runs, and what is there


def wildcards_are_looked_up(room):
    """a log that is made later and fits a wildcard is followed from the next reload on, and one that is there no more is let be"""
    os.mkdir(room.path("logs"))
    for name in ["a.log", "b.log"]:
        write(room.path(f"logs/{name}"), failures(f"192.0.2.{ord(name[0])}"))
    room.configure(log=room.path("logs/*.log"), maxretry=100)
    with room.server() as server:
        server.wait_said(found("192.0.2.98"))
        write(room.path("logs/c.log"), failures("192.0.2.99"))
        server.turn()
        same(server.count(found("192.0.2.99")), 0, "failures in a log that is not looked up yet")
        os.remove(room.path("logs/a.log"))
        reload(room)
        ask(room, 0, f"{room.path('logs/b.log')}\n{room.path('logs/c.log')}", "get", "web", "logpath")
        server.wait_said(found("192.0.2.99"))
        write(room.path("logs/b.log"), failures("192.0.2.1"), "a")
        server.wait_said(found("192.0.2.1"))
        # With `tail` what stands in a log that is new is passed over.
        write(room.path("logs/d.log"), failures("192.0.2.100"))
        room.configure(log=room.path("logs/*.log") + " tail", maxretry=100)
        reload(room)
        server.turn()
        write(room.path("logs/d.log"), failures("192.0.2.2"), "a")
        server.wait_said(found("192.0.2.2"))
        wanted = [found("192.0.2.97"), found("192.0.2.98"), RELOADED, found("192.0.2.99"), found("192.0.2.1"), RELOADED, found("192.0.2.2")]
        same(server.said()[1:], wanted, "said")


def a_directory_is_not_listed(room):
    """logs whose directory a reload does not find, or may not list, are let go with their places, and read from the beginning when it finds them"""
    os.mkdir(room.path("logs"))
    write(room.path("logs/a.log"), failures(ADDRESS))
    os.chmod(room.path("logs"), 0o755)
    os.chmod(room.path("logs/a.log"), 0o644)
    room.configure(log=room.path("logs/*.log"), maxretry=100)
    with room.server(**room.as_nobody()) as server:
        server.wait_said(found())
        os.rename(room.path("logs"), room.path("away"))
        reload(room)
        ask(room, 0, "", "get", "web", "logpath")
        os.rename(room.path("away"), room.path("logs"))
        os.chmod(room.path("logs"), 0)
        reload(room)
        os.chmod(room.path("logs"), 0o755)
        reload(room)
        server.wait_said(found(), 2)
        server.turn()
        unread = f"WARNING [web] cannot read {room.path('logs/*.log')}"
        same(server.said(), [READY, found(), RELOADED, unread, RELOADED, RELOADED, found()], "said")


def commands_run_on(room):
    """a command that runs goes on over a reload, and those of an action that is another one come behind it in their order"""
    waits = "echo $$ > {pid}; while [ ! -e {flag} ]; do sleep 0.1; done; echo ban <ip> >> {done}"
    act(room, bantime=600, **{**NOTES, "actionban": waits})
    with room.server() as server:
        ban(room)
        process = noted_process(room)
        add_mail(room)
        reload(room)
        server.turn()
        want(lives(process), "the command was ended")
        act(room, bantime=600, **{**NOTES, "actionstart": "echo another start >> {done}"})
        reload(room)
        server.turn()
        want(lives(process), "the command was ended")
        same(content(room, "done"), "start\n", "done")
        write(room.path("flag"), "")
        wait_done(room, ["start", f"ban {ADDRESS}", f"unban {ADDRESS}", "stop", "another start", f"ban {ADDRESS}"])
        same(server.said(), [READY, *[found()] * 3, BAN, RELOADED, RELOADED], "said")


def many_reloads_leave_nothing(room):
    """many reloads leave no file open and no process behind"""
    act(room, bantime=600, **NOTES)
    with room.server() as server:
        ask(room, 0, "Server replied: pong", "ping")
        server.turn()
        wait_for(lambda: not children(server), "the end of all commands")
        before = server.files()
        for number in range(12):
            act(room, bantime=600 + number, **{**NOTES, "actionstop": f"echo stop {number % 2} >> {{done}}"})
            if number % 3 == 0:
                add_mail(room)
            reload(room)
            room.configure(bantime="soon")
            reload(room, False, "Configuration refused: jail.conf [web] bantime: BadTime")
        wait_for(lambda: server.files() == before, f"{before} open files", server.files)
        wait_for(lambda: not children(server), "the end of all commands")


CHECKS = [
    a_jail_is_added,
    a_jail_goes,
    a_jail_comes_again,
    limits_are_others,
    bantime_is_another,
    addresses_are_ignored,
    an_action_is_another,
    patterns_are_others,
    what_was_set_goes,
    a_log_goes_on,
    half_a_line_stays,
    no_line_is_lost_or_found_twice,
    bans_stay_and_end,
    nothing_is_another,
    the_socket_stays,
    a_configuration_is_not_taken,
    a_configuration_is_not_read,
    the_journal_has_no_room,
    reloads_come_in_a_row,
    clients_ask_at_once,
    who_is_behind_is_served,
    a_stop_comes_behind_a_reload,
    a_server_is_killed_behind_a_reload,
    wildcards_are_looked_up,
    a_directory_is_not_listed,
    commands_run_on,
    many_reloads_leave_nothing,
]
