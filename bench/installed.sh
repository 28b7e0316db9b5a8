#!/bin/sh
# The figures of bench/bans.sh and bench/logs.sh of the fail2ban that is written in Python, on the same machine: bench/installed.sh [ROOT], where ROOT is
# where its package was unpacked, and / where it is installed. It needs python3.
set -eu
cd "$(dirname "$0")/.."
[ -x "${1:-}/usr/bin/fail2ban-server" ] || { echo "there is no fail2ban-server in ${1:-/}usr/bin" >&2; exit 2; }
exec python3 -B bench/installed.py "$@"
