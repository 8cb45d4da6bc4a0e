#!/bin/sh
# build.sh CRATE: proves a crate and what it needs, and builds it: of split or bench the archive for C programs, which
# the crate CRATE_c exports, as target/staticlib/libCRATE.a; of a program, one that knows --help, target/bin/CRATE. What
# is proved and has not changed is not proved again.
set -eu
root=$(cd "$(dirname "$0")/.." && pwd)

placed() { # FILE PLACE: a copy that is there whole or not at all
    mkdir -p "$(dirname "$2")"
    cp "$1" "$2.new"
    mv "$2.new" "$2"
}

if [ -d "$root/crates/${1-}_c" ]; then
    cd "$root/crates/${1}_c"
    rt lib
    placed "out/lib${1}_c.a" "$root/target/staticlib/lib$1.a"
elif [ -f "$root/crates/${1-}/src/main.rt" ]; then
    cd "$root/crates/$1"
    rt run -- --help </dev/null
    placed "out/$1" "$root/target/bin/$1"
else
    echo "tools/build.sh: neither a program nor a crate with an archive: ${1-}" >&2
    exit 2
fi
