#!/bin/bash
# What becomes of the programs where memory runs out: short worked runs of the server, the client and the tester, made over and over, in each of which another
# request for memory is refused, alone or with all behind it. tests/memory.sh makes all, tests/memory.sh WORD those whose name has the word.
#
# By default the first hundred requests and the last ones are refused one by one, and each thirteenth of those between, which are mostly of patterns that are
# built: some 10,000 runs, most of each waiting; how long they take with the proved programs was not seen. EACH=1 refuses each request, AT=57 the 57th alone, and AT=57-90/3 each third of
# these; a run that fails is told with its number. It takes the proved programs where they stand, and else builds the same sources with checks and without
# proofs, with which it takes long; SERVER=PATH, CLIENT=PATH and TESTER=PATH name others. It needs a C compiler, for the library that refuses, which is loaded
# before the C library: where there is none it says so, and ends with 0. All that the programs ask for comes to it by the C library's malloc, calloc, realloc
# and aligned_alloc; what the system is asked for by the C library itself, as the stack of a process that starts, is never refused. It is no part of the gate.
set -eu
cd "$(dirname "$0")/.."
if ! command -v cc >/dev/null && ! command -v gcc >/dev/null && ! command -v clang >/dev/null; then
    echo "memory: skipped: there is no C compiler"
    exit 0
fi
server=${SERVER:-$(tests/program.sh fail2ban_server)}
client=${CLIENT:-$(tests/program.sh fail2ban_client)}
tester=${TESTER:-$(tests/program.sh fail2ban_regex)}
echo "memory: the server is ${server#"$PWD/"}, the client is ${client#"$PWD/"}, and the tester is ${tester#"$PWD/"}"
exec python3 -B tests/memory "$server" "$client" "$tester" "$@"
