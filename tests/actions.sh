#!/bin/bash
# The actions that ship, over stand-ins of nft, ipset, iptables, ip and sendmail that keep in files what a firewall would: each command by itself, the rules
# that they make, and the server with jails that have them. tests/actions.sh makes all checks, tests/actions.sh WORD those whose name has the word;
# BANS=1000 says how many bans a firewall has to get back after a reboot. It takes the proved programs where they stand, and else builds the same sources
# with checks and without proofs. It changes no firewall, and nothing is proved here.
set -eu
cd "$(dirname "$0")/.."
server=$(tests/program.sh fail2ban_server)
client=$(tests/program.sh fail2ban_client)
echo "actions: the server is ${server#"$PWD/"}, and the client is ${client#"$PWD/"}"
exec python3 -B tests/actions "$server" "$client" "$@"
