#!/bin/sh
# Measures how fast the pattern tester goes through 100,000 lines of each filter that ships, those of its log in tests/filters, on one core. Needs the kit's
# command rt, and python3.
. "$(dirname "$0")/proved.sh"
proved fail2ban_regex
python3 -B bench/filters.py "$program"
