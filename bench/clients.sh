#!/bin/sh
# Measures how long the server takes to reply to a ping, over one connection, over sixteen and by the client program, how many bans a second it
# takes that are asked for one by one, or many in a request, and how long a client waits for a reload. A word names the folder for the journal,
# else it is that of temporary files: its disk is synced twice for each request that changes something. Needs the kit's command rt, and python3.
. "$(dirname "$0")/proved.sh"
proved fail2ban_client
client=$program
proved fail2ban_server
python3 -B bench/clients.py "$program" "$client" "$@"
