#!/bin/bash
# The filters that ship, in the pattern tester, over lines of real logs; and all of conf/ in the server. tests/filters.sh makes all checks,
# tests/filters.sh WORD those whose name has the word. It takes the proved programs where they stand, and else builds the same sources with checks
# and without proofs. Nothing is proved here.
set -eu
cd "$(dirname "$0")/.."
tester=$(tests/program.sh fail2ban_regex)
server=$(tests/program.sh fail2ban_server)
echo "filters: the tester is ${tester#"$PWD/"}, and the server is ${server#"$PWD/"}"
exec python3 -B tests/filters "$tester" "$server" "$@"
