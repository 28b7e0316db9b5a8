#!/bin/bash
# Kills the server 200 times, or as often as the first word says, at random moments under load, starts it each time, and prints what was lost.
# A second word is the seed of what is random. It takes the proved server where that stands, and else builds the same sources with checks and
# without proofs; SERVER=PATH names another program. Needs the kit's command rt, and python3. It takes some ten minutes.
set -eu
cd "$(dirname "$0")/.."
server=${SERVER:-$(tests/program.sh fail2ban_server)}
echo "the server is ${server#"$PWD/"}"
exec python3 -B bench/kill.py "$server" "$@"
