#!/bin/bash
# An install as a new user makes it: into an empty root, and what its unit runs over the configuration that ships, with the action dummy, in a root of its
# own. tests/fresh.sh makes all checks, tests/fresh.sh WORD those whose sentence has the word. Where the machine lets no root be made it fails, and with
# WITHOUT_ROOT=yes it skips what needs one. It takes the proved programs where they stand, and else builds the same sources with checks and without proofs.
# It changes nothing outside a folder that it removes, and nothing is proved here.
set -eu
cd "$(dirname "$0")/.."
server=$(tests/program.sh fail2ban_server)
client=$(tests/program.sh fail2ban_client)
tester=$(tests/program.sh fail2ban_regex)
echo "fresh: the server is ${server#"$PWD/"}, the client is ${client#"$PWD/"}, and the tester is ${tester#"$PWD/"}"
exec python3 -B tests/fresh "$server" "$client" "$tester" "$@"
