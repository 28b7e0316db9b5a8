#!/bin/bash
# Tells which jails, filters and actions of a configuration that was made for another fail2ban are taken, each by itself: bench/taken.sh /etc/fail2ban
# The directory is copied, and no command of its actions finds a program: nothing is changed on the machine.
set -eu
cd "$(dirname "$0")/.."
[ -d "${1:-}" ] || { echo "usage: bench/taken.sh DIRECTORY" >&2; exit 2; }
server=$(tests/program.sh fail2ban_server)
tester=$(tests/program.sh fail2ban_regex)
exec python3 -B bench/taken.py "$server" "$tester" "$1"
