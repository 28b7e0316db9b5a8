#!/bin/sh
# Measures how fast the server takes in a log that is there when it starts, beside Python's re with the same patterns, grep, and
# fail2ban-regex where it is installed, all on the same log, on one core. Needs the kit's command rt, and python3.
. "$(dirname "$0")/proved.sh"
proved fail2ban_server
python3 bench/follow.py "$program"
