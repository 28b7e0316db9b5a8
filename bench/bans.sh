#!/bin/sh
# Measures how fast bans become commands, beside a shell that is started as often, how long a start takes with as many bans active, and how long it
# takes from a line of a log to the end of its command. A word names the folder for the journal, else it is that of temporary files: its disk is
# synced twice for each command. Needs the kit's command rt, and python3.
. "$(dirname "$0")/proved.sh"
proved fail2ban_server
python3 -B bench/bans.py "$program" "$@"
