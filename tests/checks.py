"""What the checks beside this file ask with, and how they are made: each by itself, with a line for each."""

import time
import traceback
from collections import Counter
from concurrent.futures import ThreadPoolExecutor

# How many seconds a check waits for what has to come while nothing else comes, on a machine that is busy with other work.
PATIENCE = 180


class Failed(Exception):
    """What a check saw in place of what it wanted."""


class Skipped(Exception):
    """Why a check cannot be made here."""


def want(holds, saw):
    if not holds:
        raise Failed(saw)


def same(saw, wanted, what):
    want(saw == wanted, f"{what}: {saw!r} and not {wanted!r}")


def wait_for(holds, what, so_far=lambda: None):
    """Waits until the condition holds, for as long as something comes. `so_far` tells what has come."""
    last, end = so_far(), time.monotonic() + PATIENCE
    while not holds():
        now = so_far()
        if now != last:
            last, end = now, time.monotonic() + PATIENCE
        want(time.monotonic() < end, f"{what}: nothing within {PATIENCE} s, behind {last!r}")
        time.sleep(0.02)


def made(check):
    """Makes a check, and gives what it came to and what more there is to say."""
    began = time.monotonic()
    try:
        more = check()
    except Failed as why:
        return "FAILED", str(why)
    except Skipped as why:
        return "skipped", str(why)
    except Exception as why:
        traceback.print_exc()
        return "FAILED", repr(why)
    return "ok", more or f"{time.monotonic() - began:.1f} s"


def status_of(title, checks, word="", side_by_side=1):
    """Makes the checks whose name has the word, so many side by side, prints a line for each, one for each reason to skip some, and a last one, and
    gives the exit status: 0 where some passed and none failed. A check is its name and a call, which may give what more there is to say."""
    chosen, count, skipped = [(name, check) for name, check in checks if word in name], Counter(), Counter()
    with ThreadPoolExecutor(side_by_side) as pool:
        for (name, _), (came_to, more) in zip(chosen, pool.map(lambda it: made(it[1]), chosen)):
            count[came_to] += 1
            skipped[more] += came_to == "skipped"
            print(f"{came_to}: {name}: {more}", flush=True)
    for why, times in sorted(skipped.items()):
        if times:
            print(f"{title}: {times} skipped: {why}")
    print(f"{title}: {count['ok']} passed, {count['FAILED']} failed")
    return 1 if count["FAILED"] or not count["ok"] else 0
