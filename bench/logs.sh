#!/bin/sh
# Measures the server on its logs: ten logs of ten jails, one log with few and with many failures, how long a failure takes to be said, what
# idle jails cost, and how many lines a rotation loses. Needs the kit's command rt, and python3.
. "$(dirname "$0")/proved.sh"
proved fail2ban_server
python3 bench/logs.py "$program"
