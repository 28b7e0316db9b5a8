#!/bin/sh
# Measures how fast the pattern tester goes through a log, beside grep, and the fail2ban-regex that is installed, if one is, all on the same
# logs, on one core: bench/tester.sh [LINES], where 18,000,000 make logs of 2 GB. Needs the kit's command rt, and python3.
. "$(dirname "$0")/proved.sh"
proved fail2ban_regex
python3 bench/tester.py "$program" "$@"
