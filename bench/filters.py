"""Has the pattern tester search 100,000 lines of each filter that ships, on one core, and prints how many lines a second it took, and how many
bytes of long lines.

    filters.py TESTER

A log of tests/filters repeats until it has so many lines: each filter sees failures and others in the share that its log has. Long lines are
made of those of the log, as by whoever would have a search take long: a line goes on with itself, with its second half, or with words, up to its
length.
"""

import glob
import os
import re
import sys
import tempfile

from follow import run

# As many as the environment says, to see the script at work.
LINES = int(os.environ.get("LINES", 100_000))

# How long the long lines are: a line of more than 65,536 bytes is not searched. There are so many bytes of each.
LENGTHS, BYTES = (16_250, 65_000), LINES * 65

HERE = os.path.dirname(os.path.abspath(__file__))
LOGS = os.path.join(HERE, "../tests/filters")
CONF = os.path.join(HERE, "../conf")


def log_and_filter(path):
    """The lines of a log without what stands above each, and the filter that it names, or that its own name is."""
    with open(path) as file:
        text = file.read()
    named = re.match(r"# filter: (.+)\n", text)
    name = named[1] if named else os.path.basename(path).removesuffix(".log")
    return [line + "\n" for line in text.splitlines() if not line.startswith("# ")], name


def measure(tester, path, place, cpu):
    lines, name = log_and_filter(path)
    log = os.path.join(place, "log")
    with open(log, "w") as file:
        file.writelines((lines * (LINES // len(lines) + 1))[:LINES])
    took = run(name, [tester, "-c", CONF, log, name], cpu)
    matched = int(re.search(r", (\d+) matched", took.output)[1])
    print(f"  {name:30} {LINES / took.cpu:12,.0f} lines/s {100 * matched / LINES:5.0f} failures in 100 {took.peak / 1024:8.1f} MiB", flush=True)


def long_lines(lines, length):
    """Lines of a length, as many as have the bytes."""
    made = []
    while len(made) * length < BYTES:
        line = lines[len(made) % len(lines)].rstrip("\n")
        goes_on = [line, line[len(line) // 2 :], " x", " from 192.0.2.99"][len(made) // len(lines) % 4]
        made.append((line + goes_on * (length // len(goes_on)))[: length - 1] + "\n")
    return made


def hostile(tester, path, place, cpu):
    """Prints how many bytes a second of long lines are searched, and how much longer as many bytes take in lines that are four times as long: as
    long where the time grows with the length alone."""
    lines, name = log_and_filter(path)
    log, rates = os.path.join(place, "log"), []
    for length in LENGTHS:
        made = long_lines(lines, length)
        with open(log, "w") as file:
            file.writelines(made)
        took = run(name, [tester, "-c", CONF, log, name], cpu)
        rates.append(sum(map(len, made)) / took.cpu / 1e6)
    print(f"  {name:30} {rates[0]:8.1f} MB/s {rates[1]:8.1f} MB/s {rates[0] / rates[1]:6.2f} times {took.peak / 1024:8.1f} MiB", flush=True)


def main(tester):
    print(f"{LINES:,} lines for each filter, by {os.path.relpath(tester)}:")
    cpu = max(os.sched_getaffinity(0))
    with tempfile.TemporaryDirectory() as place:
        paths = sorted(glob.glob(os.path.join(LOGS, "*.log")))
        for path in paths:
            measure(tester, path, place, cpu)
        print(f"lines of {LENGTHS[0]:,} bytes, of {LENGTHS[1]:,}, and how many times as long these take for as many bytes (1 wanted):")
        for path in paths:
            hostile(tester, path, place, cpu)


if __name__ == "__main__":
    if len(sys.argv) == 2:
        main(os.path.abspath(sys.argv[1]))
    else:
        sys.exit(__doc__)
