#!/bin/sh
# Waits until a relay has nothing kept: examples/relay_empty.sh ADDRESS COMMAND.., where the command
# prints what the relay noted, as `cat notes` or `journalctl -u spanx_relay@4330 -o cat`. Let no
# client post meanwhile.
#
# It asks the relay for a page that isn't there, three times. Behind each of these connections the
# relay sends on at most 1,000 bodies, of the 1,024 that it has room for, and the third is answered
# once it has done so behind the second. Where none of them has a line that tells of a peer or a
# keeper, all were sent. Else it waits for a second and does it again. It ends with 1 where nobody
# answers. It needs curl.
address=$1
shift
# How many bodies were held back so far, by the lines that say so.
held_back() { "$@" | grep -c ': peer \|: keeper '; }
while :; do
    before=$(held_back "$@")
    for _ in 1 2 3; do
        curl -s -o /dev/null --max-time 300 "http://$address/" || { echo "relay_empty: nobody answers at $address" >&2; exit 1; }
    done
    [ "$(held_back "$@")" = "$before" ] && exit 0
    sleep 1
done
