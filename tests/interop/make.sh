#!/usr/bin/env bash
# `make.sh FOLDER [OURS]` writes into FOLDER what python3-msgpack and msgpack-c write, the packages python3-msgpack and libmsgpack-dev of Debian:
# messages.txt, and puts.txt by msgpack-c alone. With OURS, rows of a kind and a message of this library, what both read of these is read.txt.
# The status is 3 where a package isn't installed.
set -euo pipefail
here=$(dirname "$(readlink -f "$0")")
folder=$1
ours=${2:-/dev/null}
work=$(mktemp -d)
trap 'rm -rf "$work"' EXIT
missing() {
    echo "$1 isn't installed" >&2
    exit 3
}
/usr/bin/python3 -c "import msgpack" 2>/dev/null || missing python3-msgpack
gcc -E -include msgpack.h -xc /dev/null >/dev/null 2>&1 || missing libmsgpack-dev
for library in msgpack-c msgpackc; do
    [ -x "$work/write" ] || gcc -Wall -Wextra -Werror -o "$work/write" "$here/write.c" "-l$library" 2>"$work/said" || true
done
[ -x "$work/write" ] || {
    cat "$work/said" >&2
    exit 1
}
by_both() {
    echo "# python3-msgpack"
    /usr/bin/python3 "$here/write.py" "$@" <"$ours"
    echo "# msgpack-c"
    "$work/write" "$@" <"$ours"
}
by_both >"$work/messages.txt"
{
    echo "# msgpack-c: what is packed, and its bytes before the payload, whose byte i is i modulo 256"
    "$work/write" puts
} >"$work/puts.txt"
[ $# -lt 2 ] || by_both read >"$work/read.txt"
mv "$work"/*.txt "$folder"
