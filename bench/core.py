"""Runs the program that passes days through the core, each day on one core, and prints what that took.

    core.py PROGRAM
"""

import os
import subprocess
import sys

DAYS = [
    ("busy", "250 a second: many bans"),
    ("lines", "the same, and bans show lines"),
    ("failures", "40 a second: few bans"),
    ("bans", "55 a second, each a ban"),
    ("fewer", "11 a second, each a ban"),
    ("once", "a million addresses, once each"),
    ("swept", "the same, too old and swept"),
]


def run(program, day, cpu):
    """What the program says of a day, by the words of its lines."""
    words = [program, day]
    done = subprocess.run(
        words, stdout=subprocess.PIPE, text=True, check=True, preexec_fn=lambda: os.sched_setaffinity(0, {cpu})
    )
    said = {}
    for line in done.stdout.splitlines():
        name, _, number = line.partition(" " if ":" not in line else ":")
        said[name] = number
    numbers = {name: int(said[name]) for name in ("inputs", "counted", "begun", "active", "open", "microseconds")}
    numbers["peak"] = int(said["VmHWM"].split()[0])
    numbers["left"] = int(said["VmRSS"].split()[0])
    return numbers


def each_takes(few, many, thing):
    """How many bytes more there are at the peak for each more of a thing that stands at the end."""
    return (many["peak"] - few["peak"]) * 1024 / (many[thing] - few[thing])


def main(program):
    cpu = max(os.sched_getaffinity(0))
    base = run(program, "empty", cpu)
    days = {day: run(program, day, cpu) for day, _ in DAYS}
    print(f"one of {os.cpu_count()} cores; with no inputs {base['peak'] / 1024:.1f} MiB")
    print(
        f"{'':30} {'inputs':>9} {'CPU s':>6} {'inputs/s':>9} {'counted':>8} {'begun':>8}"
        f" {'active':>7} {'open':>7} {'peak MiB':>9}"
    )
    for day, name in DAYS:
        each = days[day]
        seconds = each["microseconds"] / 1e6
        print(
            f"{name:30} {each['inputs']:9,} {seconds:6.2f} {each['inputs'] / seconds:9,.0f} {each['counted']:8,}"
            f" {each['begun']:8,} {each['active']:7,} {each['open']:7,} {each['peak'] / 1024:9.1f}"
        )
    print(f"once swept {days['swept']['left'] / 1024:.1f} MiB are left, {100 * days['swept']['left'] / days['swept']['peak']:.0f} % of the peak")
    times = days["lines"]["microseconds"] / days["busy"]["microseconds"]
    print(f"with lines {times:.2f} times the time of the same day without")
    print(f"about {each_takes(base, days['once'], 'open'):.0f} bytes for each address that failed once, with an empty line")
    print(f"about {each_takes(base, days['failures'], 'open'):.0f} bytes for each open failure, with the window of its address")
    print(f"about {each_takes(days['fewer'], days['bans'], 'active'):.0f} bytes for each active ban")


if __name__ == "__main__":
    if len(sys.argv) != 2:
        sys.exit(__doc__)
    main(os.path.abspath(sys.argv[1]))
