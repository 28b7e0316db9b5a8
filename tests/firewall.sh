#!/bin/bash
# The actions that keep out, with the real nft, ipset, iptables and ip, in a network's namespace of its own: the machine's own firewall is not touched.
# tests/firewall.sh makes all checks, tests/firewall.sh WORD those whose name has the word; BANS=10000 says how many bans a firewall has to get back after
# a reboot. It needs root and those programs, is no part of the gate, and where it cannot run it says so, and ends with 0.
set -eu
cd "$(dirname "$0")/.."
skip() {
    echo "firewall: skipped: $1"
    exit 0
}
[ "$(id -u)" = 0 ] || skip "it needs root"
for program in unshare nft ipset iptables ip6tables ip; do
    command -v "$program" >/dev/null || skip "there is no $program here"
done
# What the kernel, or what this runs in, may lack.
may() {
    unshare --net sh -c "$1" >/dev/null 2>&1 || skip "a network's namespace of its own, or $2 in it, is not to be had here"
}
may true "anything"
may 'nft add table ip f2b-try && nft list tables' nft
may 'ipset create f2b-try hash:ip && iptables -w -I INPUT -m set --match-set f2b-try src -j REJECT' "iptables with a set"
may 'ip6tables -w -I INPUT -p tcp -m multiport --dports 22 -j REJECT' ip6tables
may 'ip rule add priority 1000 lookup 4242 && ip -6 route add blackhole 2001:db8::7 table 4242' "rules and routes"
server=$(tests/program.sh fail2ban_server)
client=$(tests/program.sh fail2ban_client)
echo "firewall: the server is ${server#"$PWD/"}, the client is ${client#"$PWD/"}; $(nft --version), $(iptables --version), $(ipset --version | head -n 1)"
exec unshare --net python3 -B tests/actions --real "$server" "$client" "$@"
