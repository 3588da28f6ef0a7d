#!/bin/bash
# Makes the packages twice, which must give the same bytes, and runs their programs in a root that holds the C library and nothing
# else: from each form to each that of the archive must write what ./spanx writes here, byte by byte, and its agent what that makes
# of the batch in a datagram, and its relay sends on what that makes of a post. The pages in both must link what lies beside them,
# and name no script of bench/. Debian's package is
# installed in that root by dpkg and removed, and lintian, where it is there, finds no error in it. It ends with 0 where all holds.
# By bench/packages/package.sh --debian URL the root is Debian's smallest system instead, which `debootstrap` makes. Who isn't root needs
# `unshare`, which not every machine allows, and leaves the installing out.
cd "$(dirname "$0")/../.." || exit 2
room=$(mktemp -d) || exit 2
trap 'rm -rf "$room"' EXIT
wrong=0

# A truth: holds NAME COMMAND.
holds() {
    local name=$1
    shift
    if "$@"; then echo "ok: $name"; else echo "WRONG: $name"; wrong=1; fi
}

./package || exit 2
archive=spanx-$(cat VERSION)-linux-x86_64.tar.gz
deb=spanx_$(cat VERSION)_amd64.deb
cp SHA256SUMS "$room/first"
./package >/dev/null || exit 2
holds "two runs of ./package make the same bytes" cmp -s "$room/first" SHA256SUMS
holds "the sums are those of the archive and of Debian's package" [ "$(sha256sum -c SHA256SUMS)" = "$archive: OK
$deb: OK" ]
unpacked=$room/unpacked
mkdir "$unpacked"
tar -C "$unpacked" --strip-components 1 -xzf "$archive" || exit 2
(cd "$unpacked" && find . -type f | sort | sed 's/^/    /')

# What is wrong with the pages of a folder: links to what isn't there, and names of what isn't packed.
odd() {
    local page target
    for page in "$1"/README.md "$1"/docs/*.md; do
        grep -o '](\([^)#]*\)' "$page" | sed 's/^](//' | sort -u | while read -r target; do
            case $target in http*) ;; *) [ -e "$(dirname "$page")/$target" ] || echo "$page links $target" ;; esac
        done
        grep -n -e '`bench/' -e 'docs/spanx[_a-z]*\.1' -e '``' "$page" /dev/null
    done
}
same_pages() {
    local page
    for page in README.md docs/*.md; do
        [ "$(grep -c '' "$page")" = "$(grep -c '' "$unpacked/share/doc/spanx/$page")" ] || { echo "$page"; return 1; }
    done
}
odd "$unpacked/share/doc/spanx"
holds "its pages link what is there, and name nothing that isn't" [ -z "$(odd "$unpacked/share/doc/spanx")" ]
holds "its pages are all of those of the checkout, line by line" same_pages
for unit in examples/*.service; do
    holds "the unit ${unit##*/} is in it" cmp -s "$unit" "$unpacked/share/doc/spanx/$unit"
done
for name in spanx spanx_agent spanx_relay; do
    holds "the man page of $name is that of the checkout" cmp -s "docs/$name.1" "$unpacked/share/man/man1/$name.1"
done

# The root.
root=$room/root
if [ "$1" = --debian ]; then
    debootstrap --variant=minbase stable "$root" "$2" >"$room/log" || { cat "$room/log"; exit 2; }
    echo "the root is Debian $(cat "$root/etc/debian_version")"
else
    mkdir -p "$root/lib64" "$root/lib/x86_64-linux-gnu"
    for name in /lib64/ld-linux-x86-64.so.2 /lib/x86_64-linux-gnu/libc.so.6; do
        cp -L "$name" "$root$name" || exit 2
    done
fi
cp "$unpacked/bin/"* "$root/"
cp "$deb" "$root/spanx.deb"
inside=(chroot "$root")
[ "$(id -u)" = 0 ] || inside=(unshare -r chroot "$root")
(cd "$root" && find . -type f | head -n 10 | sed 's/^/    /')

# An input of each form.
forms="otlp-proto otlp-json jaeger-binary jaeger-compact zipkin-json"
cp examples/checkout.bin "$room/otlp-proto"
cp examples/checkout.json "$room/otlp-json"
cp examples/checkout_batch.bin "$room/jaeger-binary"
./spanx convert --from jaeger-binary --to jaeger-compact <examples/checkout_batch.bin >"$room/jaeger-compact" || exit 2
cp examples/checkout_spans.json "$room/zipkin-json"
for from in $forms; do
    for to in $forms; do
        ./spanx convert --from "$from" --to "$to" <"$room/$from" >"$room/here" 2>"$room/notes"
        here=$?
        "${inside[@]}" /spanx convert --from "$from" --to "$to" <"$room/$from" >"$room/there" 2>"$room/notes.there"
        there=$?
        cat "$room/notes" >>"$room/here"
        cat "$room/notes.there" >>"$room/there"
        told="status $here, $(wc -c <"$room/here") bytes$(sed 's/^/, /' "$room/notes")"
        if [ $here = $there ]; then
            holds "$from to $to: $told" cmp "$room/here" "$room/there"
        else
            holds "$from to $to: $told, and status $there in the root" false
        fi
    done
done
"${inside[@]}" /spanx </dev/null >"$room/there" 2>"$room/notes"
told="status $?, $(cut -d ' ' -f 1 "$room/notes")"
holds "no words: $told" [ "$told" = "status 2, usage:" ]

# The agents, which are sent one datagram: agent_at PROGRAM.
examples/batch_of_datagram.py <examples/checkout_datagram.bin | ./spanx convert --from jaeger-compact --to otlp-json >"$room/of_datagram"
echo >>"$room/of_datagram"
agent_at() {
    local tries=0
    "${inside[@]}" "$1" --listen 127.0.0.1:16831 --to otlp-json --count 1 >"$room/there" &
    # 16831 in hexadecimal is 41BF.
    until grep -q ':41BF ' /proc/net/udp || [ $((tries += 1)) = 50 ]; do sleep 0.1; done
    cat examples/checkout_datagram.bin >/dev/udp/127.0.0.1/16831
    wait $! && cmp "$room/of_datagram" "$room/there"
}
holds "its agent, of a datagram" agent_at /spanx_agent

# The relays, to which one request is posted and whose peer is a server in Python: relay_at PROGRAM.
./spanx convert --from otlp-proto --to zipkin-json <examples/checkout.bin >"$room/of_post"
relay_at() {
    rm -f "$room/sent"
    python3 - "$room/sent" <<'PEER' &
import http.server, sys
class Handler(http.server.BaseHTTPRequestHandler):
    def log_message(self, *words):
        pass
    def do_POST(self):
        with open(sys.argv[1], "wb") as file:
            file.write(self.rfile.read(int(self.headers["Content-Length"])))
        self.send_response(202)
        self.end_headers()
http.server.HTTPServer(("127.0.0.1", 16832), Handler).handle_request()
PEER
    # 16831 and 16832 in hexadecimal are 41BF and 41C0.
    listens 41C0
    "${inside[@]}" "$1" --listen 127.0.0.1:16831 --to zipkin-json --peer 127.0.0.1:16832 --count 1 &
    local relay=$!
    listens 41BF
    curl -s --data-binary @examples/checkout.bin -H 'Content-Type: application/x-protobuf' http://127.0.0.1:16831/v1/traces
    wait $relay && cmp "$room/of_post" "$room/sent"
}
# Waits until something takes connections at a port in hexadecimal.
listens() {
    local tries=0
    until grep -q ":$1 00000000:0000 0A" /proc/net/tcp || [ $((tries += 1)) = 50 ]; do sleep 0.1; done
}
holds "its relay, of a post" relay_at /spanx_relay

# Debian's package.
if command -v lintian >/dev/null; then
    lintian --fail-on error "$deb" >"$room/said" 2>/dev/null
    found=$?
    sed 's/^/    /' "$room/said"
    holds "lintian finds no error" [ $found = 0 ]
else
    echo "left out: lintian isn't there"
fi
if [ "$(id -u)" = 0 ]; then
    if [ "$1" = --debian ]; then
        dpkg=(chroot "$root" dpkg)
        at=/spanx.deb
    else
        mkdir -p "$root/var/lib/dpkg/updates" "$root/var/lib/dpkg/info" "$root/var/lib/dpkg/triggers"
        touch "$root/var/lib/dpkg/status"
        # The root has the C library, but not as a package.
        dpkg=(dpkg --root="$root" --force-depends --force-script-chrootless --log=/dev/null)
        at=$deb
    fi
    holds "dpkg installs it" "${dpkg[@]}" --install "$at" >"$room/log" 2>&1
    cat "$room/log"
    for from in $forms; do
        ./spanx convert --from "$from" --to otlp-proto <"$room/$from" >"$room/here"
        "${inside[@]}" /usr/bin/spanx convert --from "$from" --to otlp-proto <"$room/$from" >"$room/there"
        holds "its program, from $from" cmp "$room/here" "$room/there"
    done
    holds "its agent, of a datagram" agent_at /usr/bin/spanx_agent
    holds "its relay, of a post" relay_at /usr/bin/spanx_relay
    dpkg-deb --fsys-tarfile "$deb" | tar -t | sed 's/^/    /'
    doc=$root/usr/share/doc/spanx
    holds "its pages link what is there, and name nothing that isn't" [ -z "$(odd "$doc")" ]
    for name in spanx spanx_agent spanx_relay; do
        holds "the man page of $name is that of the checkout" cmp -s "docs/$name.1" <(gzip -dc "$root/usr/share/man/man1/$name.1.gz")
    done
    for unit in examples/*.service; do
        holds "the unit ${unit##*/} is that of the checkout" cmp -s "$unit" "$root/lib/systemd/system/${unit##*/}"
    done
    holds "dpkg removes it" "${dpkg[@]}" --purge spanx >"$room/log" 2>&1
    cat "$room/log"
    holds "nothing of it is left" [ -z "$(find "$root/usr/bin" "$doc" "$root/lib/systemd/system" -name '*spanx*' 2>/dev/null)" ]
else
    echo "left out: who isn't root installs nothing"
fi
exit $wrong
