#!/bin/sh
# Moves one file of spans to another form, and leaves either the whole output or none.
#
#     examples/move.sh FROM TO INPUT OUTPUT
#
# FROM and TO are words of forms, as for `spanx convert`. The program is `spanx`, or what the variable SPANX names.
#   1. INPUT is checked; what can't be read, and what has no span, is refused.
#   2. What reading leaves out and what TO has no place for is listed in OUTPUT.err.
#   3. It is converted to OUTPUT.part, which is renamed to OUTPUT where all of that went well.
# It prints INPUT, OUTPUT and the numbers of spans, remarks and losses in one line. Where it fails, OUTPUT is as it was before,
# OUTPUT.part is gone, OUTPUT.err has the reason, a line on standard error names INPUT and the reason, and the status is that of
# `spanx` (3 refused, 4 a fault, 5 a failing input, 6 a failing output), 1 where there is no span, 2 for wrong words. Without
# remarks and losses there is no OUTPUT.err in the end.
if [ $# -ne 4 ]; then
    sed -n 's/^# \{0,1\}//p' "$0" | sed 1d >&2
    exit 2
fi
from=$1 to=$2 input=$3 output=$4
spanx=${SPANX-spanx}

fail() {
    rm -f "$output.part"
    echo "$input: $2" >&2
    exit "$1"
}
last_line() {
    tail -n 1 "$output.err" 2>/dev/null
}
trap 'rm -f "$output.part"; exit 130' HUP INT TERM

[ -r "$input" ] || fail 5 "it can't be read"
(: >"$output.err") 2>/dev/null || fail 6 "$output.err can't be written"

"$spanx" check --from "$from" <"$input" >"$output.err" 2>&1 || fail $? "$(last_line)"
counts=$(last_line)
case $counts in
    *" spans 0,"*) fail 1 "no spans were read: $counts" ;;
esac
remarks=$(sed '$d' "$output.err")
"$spanx" losses --from "$from" --to "$to" <"$input" >"$output.err" 2>&1 || fail $? "$(last_line)"
losses=$(last_line)
lines=$(sed '$d' "$output.err")

"$spanx" convert --from "$from" --to "$to" <"$input" >"$output.part" 2>"$output.err" || fail $? "$(last_line)"
if [ -n "$remarks$lines" ]; then
    printf '%s\n' "$remarks" "$lines" | sed '/^$/d' >"$output.err" || fail 6 "$output.err can't be written"
else
    rm -f "$output.err"
fi
mv -f "$output.part" "$output" || fail 6 "$output can't be written"
echo "$input $output: $counts, $losses"
