#!/bin/bash
# Shows what ./spanx, ./spanx_agent and ./spanx_relay do before they run the program, on a copy with a stand-in for rt: it is found
# through symbolic links, builds where it must and only there, never removes a program, and runs the old one where there is no rt.
# It ends with 0 where each case goes as it must.
top=$(cd "$(dirname "$0")/../.." && pwd) || exit 2
room=$(mktemp -d) || exit 2
trap 'rm -rf "$room"' EXIT
wrong=0
shell=$(command -v bash)

# A checkout with the launcher and one source.
copy=$room/a\ checkout
mkdir -p "$copy/crates/spanx/src" "$room/with" "$room/without" "$room/links/deep"
cp "$top/spanx" "$copy/spanx"
source=$copy/crates/spanx/src/main.rt
program=$copy/crates/spanx/out/spanx
touch "$source" "$room/calls"

# The commands that the launcher needs, and beside them the stand-in. It notes each call and whether a program stood there,
# and then does what $room/does says.
for name in sh cat dirname find head mktemp readlink rm touch; do
    ln -s "$(command -v $name)" "$room/without/$name"
done
cp -P "$room/without/"* "$room/with/"
cat >"$room/with/rt" <<STANDIN
#!$shell
PATH=$PATH
[ -x out/spanx ] && there=yes || there=no
echo "\$* in \$PWD, program there: \$there" >>"$room/calls"
case \$(cat "$room/does") in
    build)
        mkdir -p out
        number=\$(wc -l <"$room/calls")
        printf '#!$shell\necho "program %s: \$# words: \$*; \$(/bin/cat)"\necho "\${GLIBC_TUNABLES-none}" >"$room/settings"\nexit 9\n' \$number >out/new
        chmod +x out/new
        mv out/new "out/\${PWD##*/}"
        # A built agent or relay that has no words tells its usage.
        case \$PWD in *_agent | *_relay) echo "usage: \${PWD##*/} OPTIONS" >&2; exit 2 ;; esac ;;
    nothing) ;;
    fail) echo "rt: a goal stays open"; exit 1 ;;
    die) kill -KILL \$\$ ;;
esac
STANDIN
chmod +x "$room/with/rt"

# Runs a launcher with these commands: run FOLDER LAUNCHER WORDS.
run() {
    local folder=$1
    shift
    cp "$room/calls" "$room/calls.before"
    output=$(echo input | PATH="$room/$folder" "$@" 2>"$room/notes")
    status=$?
    notes=$(cat "$room/notes")
    calls=$(($(wc -l <"$room/calls") - $(wc -l <"$room/calls.before")))
}

# The name of a case, and the status, the output, the line on standard error (in it, or empty) and the calls of rt that it must have.
expect() {
    local held=no
    if [ -z "$4" ]; then [ -z "$notes" ] && held=yes; else [[ "$notes" == *"$4"* ]] && held=yes; fi
    if [ "$status" = "$2" ] && [ "$output" = "$3" ] && [ $held = yes ] && [ "$calls" = "$5" ]; then
        echo "ok: $1"
    else
        echo "WRONG: $1: status $status, '$output', '$notes', $calls calls; wanted $2, '$3', '$4', $5 calls"
        wrong=1
    fi
}

# A truth: holds NAME COMMAND.
holds() {
    local name=$1
    shift
    if "$@"; then echo "ok: $name"; else echo "WRONG: $name"; wrong=1; fi
}

# The first run takes as long as README says.
minutes=$(sed -n 's/.*, in \(some [0-9]* minutes on four cores\);.*/\1/p' "$top/README.md")
building="spanx: proving and building the program, in $minutes the first time"
failed="spanx: the program could not be built"

run without "$copy/spanx" convert
expect "no program and no rt" 70 "" "spanx: the program isn't built yet, and there is no rt to build it" 0

echo fail >"$room/does"
run with "$copy/spanx" convert
expect "no program, and it can't be built" 70 "" "$building
rt: a goal stays open
$failed" 1

echo build >"$room/does"
run with "$copy/spanx" convert "two words" ""
expect "no program: it is built, and gets the words and the input" 9 "program 2: 3 words: convert two words ; input" "$building" 1
holds "rt runs in the crate of the program" grep -qF "run -- convert --from otlp-proto --to otlp-proto in $copy/crates/spanx, program there: no" "$room/calls"
holds "the program has the setting of the allocator" grep -qx "glibc.malloc.tcache_count=500" "$room/settings"

run with "$copy/spanx" a
expect "a program that is newer than its sources runs at once" 9 "program 2: 1 words: a; input" "" 0
GLIBC_TUNABLES="" run with "$copy/spanx" a
holds "a setting that is there stays" grep -qx "" "$room/settings"

ln -s "$copy/spanx" "$room/links/spanx"
ln -s ../spanx "$room/links/deep/other"
run with "$room/links/spanx" a
expect "a symbolic link" 9 "program 2: 1 words: a; input" "" 0
run with "$room/links/deep/other" a
expect "a symbolic link to a symbolic link, of another name" 9 "program 2: 1 words: a; input" "" 0
cp -P "$room/links/spanx" "$room/with/spanx"
cd /
run with spanx a
expect "a symbolic link among the commands" 9 "program 2: 1 words: a; input" "" 0
cd "$copy" || exit 2
run with sh spanx a
expect "the launcher's name alone, by a shell" 9 "program 2: 1 words: a; input" "" 0

sleep 1.1
touch "$source"
run without "$copy/spanx" a
expect "a newer source and no rt: the old program runs" 9 "program 2: 1 words: a; input" \
    "spanx: sources are newer than the program, and there is no rt to build it: running it as it is" 0

echo fail >"$room/does"
run with "$copy/spanx" a
expect "a newer source that can't be built" 70 "" "$building
rt: a goal stays open
$failed" 1
holds "the old program stood there while rt worked" grep -qF "program there: yes" <(tail -n 1 "$room/calls")
holds "the old program stays" grep -q "program 2" "$program"
echo die >"$room/does"
run with "$copy/spanx" a
expect "a newer source, and rt is killed" 70 "" "$failed" 1
holds "the old program stays" grep -q "program 2" "$program"

echo nothing >"$room/does"
run with "$copy/spanx" a
expect "a newer source that changes nothing for rt" 9 "program 2: 1 words: a; input" "$building" 1
run with "$copy/spanx" a
expect "the program counts as newer then" 9 "program 2: 1 words: a; input" "" 0

sleep 1.1
touch "$source"
echo build >"$room/does"
run with "$copy/spanx" a
expect "a newer source: the program is built anew" 9 "program 6: 1 words: a; input" "$building" 1
holds "the old program stood there until then" grep -qF "program there: yes" <(tail -n 1 "$room/calls")

# The agent and the relay: the same launcher by another name, with a crate of its own.
for name in spanx_agent spanx_relay; do
    mkdir -p "$copy/crates/$name/src"
    ln -s spanx "$copy/$name"
    building="$name: proving and building the program, in $minutes the first time"
    run without "$copy/$name" --listen
    expect "no $name and no rt" 70 "" "$name: the program isn't built yet, and there is no rt to build it" 0
    echo fail >"$room/does"
    run with "$copy/$name" --listen
    expect "no $name, and it can't be built" 70 "" "$building
rt: a goal stays open
$name: the program could not be built" 1
    echo build >"$room/does"
    run with "$copy/$name" --listen a
    number=$(wc -l <"$room/calls")
    expect "no $name: it is built, and gets the words and the input" 9 "program $number: 2 words: --listen a; input" "$building" 1
    holds "rt runs in the crate of $name, without words" grep -qF "run -- in $copy/crates/$name, program there: no" "$room/calls"
    ln -s "$copy/$name" "$room/links/$name"
    run with "$room/links/$name" a
    expect "a symbolic link to $name" 9 "program $number: 1 words: a; input" "" 0
    run with "$copy/spanx" a
    expect "the first program stays what it was" 9 "program 6: 1 words: a; input" "" 0
done
exit $wrong
