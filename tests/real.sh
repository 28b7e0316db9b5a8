#!/bin/bash
# What no clause can say of the real outside: the programs over real files, pipes, clocks and signals, in folders of its own.
# tests/real.sh makes all checks, tests/real.sh WORD those whose sentence has the word. It takes the proved programs where they stand, and else
# builds the same sources with checks and without proofs; SERVER=PATH names another server. Nothing is proved here.
set -eu
cd "$(dirname "$0")/.."
server=${SERVER:-$(tests/program.sh fail2ban_server)}
client=$(tests/program.sh fail2ban_client)
tester=$(tests/program.sh fail2ban_regex)
echo "real: the server is ${server#"$PWD/"}, the client is ${client#"$PWD/"}, and the tester is ${tester#"$PWD/"}"
exec python3 -B tests/real "$server" "$client" "$tester" "$@"
