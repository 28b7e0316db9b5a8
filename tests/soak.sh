#!/bin/bash
# An hour's traffic in five minutes over the real programs: tests/soak.sh [SEED [MINUTES]]. It prints its seed, what it did, and whether status, the journal
# and the commands agree with what had to come of it, and exits with 1 where they do not. It takes the proved server and client where they stand, and else
# builds the same sources with checks and without proofs; SERVER=PATH and CLIENT=PATH name others. It is no part of the gate.
set -eu
cd "$(dirname "$0")/.."
server=${SERVER:-$(tests/program.sh fail2ban_server)}
client=${CLIENT:-$(tests/program.sh fail2ban_client)}
echo "soak: the server is ${server#"$PWD/"}, and the client is ${client#"$PWD/"}"
exec python3 -B tests/soak "$server" "$client" "$@"
