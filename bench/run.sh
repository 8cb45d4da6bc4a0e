#!/bin/sh
# run.sh CRATE PROGRAM SOURCE.. [-- ARG..]: proves the crate, builds its archive, links the C sources of this folder
# with it and runs the program. The archive is x86-64 on every machine: on Arm the toolchain's own clang, linker and
# emulator serve.
set -eu
here=$(cd "$(dirname "$0")" && pwd)
root=$(dirname "$here")
out=$root/target/bench
crate=$1
program=$2
shift 2

need() { # TOOL WHY
    command -v "$1" >/dev/null 2>&1 || {
        echo "bench/run.sh: missing: $1 ($2)" >&2
        exit 2
    }
}

need rt "the Rattle toolchain"
mkdir -p "$out"
sources=
while [ $# -gt 0 ]; do
    if [ "$1" = -- ]; then
        shift
        break
    fi
    sources="$sources $1"
    shift
done
[ -f "$root/target/staticlib/lib$crate.a" ] ||
    echo "bench/run.sh: proving $crate, some minutes the first time (log: target/bench/$crate.log)" >&2
"$root/tools/build.sh" "$crate" >"$out/$crate.log" 2>&1 || {
    cat "$out/$crate.log" >&2
    exit 1
}
archive=$root/target/staticlib/lib$crate.a
cd "$here"
case $(uname -m) in
x86_64)
    need cc "a C compiler"
    cc -std=gnu11 -O2 -Wall -Wextra -o "$out/$program" $sources "$archive"
    "$out/$program" "$@"
    ;;
aarch64)
    kit=$(dirname "$(rt doc)")/on/aarch64
    tools=$kit/toolchain
    need "$tools/bin/clang" "of the Rattle toolchain for Arm"
    need "$kit/bin/rattle-link" "of the Rattle toolchain for Arm"
    need "$tools/bin/qemu-x86_64" "of the Rattle toolchain for Arm"
    need cc "a C compiler, whose headers serve"
    headers=$(cc -E -Wp,-v -xc /dev/null 2>&1 | sed -n 's/^ \(\/.*\)$/-isystem \1/p')
    objects=
    for source in $sources; do
        "$tools/bin/clang" --target=x86_64-unknown-linux-gnu $headers -fPIE -std=gnu11 -O2 -c "$source" -o "$out/$source.o"
        objects="$objects $out/$source.o"
    done
    "$kit/bin/rattle-link" --target x86_64-unknown-linux-gnu --toolchain "$tools" -o "$out/$program" $objects "$archive" 2>"$out/$program.log" || {
        cat "$out/$program.log" >&2
        exit 1
    }
    "$tools/bin/qemu-x86_64" "$tools/lib/ld-linux-x86-64.so.2" --library-path "$tools/lib" "$out/$program" "$@"
    ;;
*)
    echo "bench/run.sh: needs x86-64 or Arm (aarch64), and this is $(uname -m)" >&2
    exit 2
    ;;
esac
