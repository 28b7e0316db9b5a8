#!/bin/sh
# Measures what the journal costs: how many inputs a second the server writes beside the disk's own rate of syncs, how long a start over long journals
# takes and in which memory, and how long a change of slots takes. A word names the folder whose disk is measured, else that of temporary files.
# Needs the kit's command rt, and python3.
. "$(dirname "$0")/proved.sh"
proved fail2ban_server
python3 -B bench/journal.py "$program" "$@"
