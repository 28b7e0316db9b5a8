#!/bin/sh
# Measures how long the client takes from its start to its end: for a time word, for a ping and for a reply of 3 MB, beside `true` and Python,
# over a server of its own, on one core. Needs the kit's command rt, and python3.
. "$(dirname "$0")/proved.sh"
proved fail2ban_client
python3 -B bench/client.py "$program"
