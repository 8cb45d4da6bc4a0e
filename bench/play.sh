#!/bin/sh
# The player against a plain C player, on a million lines of READ frames and of WRITE frames of an M95512, then of an
# M95M01: processor time a line of each, and the ratio (1.00 is as fast as plain C). Before that, on a short trace of
# each part, only compared. Both are x86-64 programs on every machine: on Arm the toolchain's own clang, linker and
# emulator serve, and a time says nothing.
set -eu
here=$(cd "$(dirname "$0")" && pwd)
root=$(dirname "$here")
out=$root/target/bench
mkdir -p "$out"
"$root/tools/build.sh" play >"$out/play.log" 2>&1 || {
    cat "$out/play.log" >&2
    exit 1
}
cd "$here"
case $(uname -m) in
x86_64)
    cc -std=gnu11 -O2 -Wall -Wextra -o "$out/plainplay" plainplay.c plain.c
    cc -std=gnu11 -O2 -Wall -Wextra -o "$out/playspeed" playspeed.c
    "$out/playspeed" "$root/target/bin/play" "$out/plainplay" "$out"
    ;;
aarch64)
    kit=$(dirname "$(rt doc)")/on/aarch64
    tools=$kit/toolchain
    headers=$(cc -E -Wp,-v -xc /dev/null 2>&1 | sed -n 's/^ \(\/.*\)$/-isystem \1/p')
    for source in plainplay plain; do
        "$tools/bin/clang" --target=x86_64-unknown-linux-gnu $headers -fPIE -std=gnu11 -O2 -c "$source.c" -o "$out/$source.o"
    done
    "$kit/bin/rattle-link" --target x86_64-unknown-linux-gnu --toolchain "$tools" -o "$out/plainplay" "$out/plainplay.o" "$out/plain.o"
    cc -std=gnu11 -O2 -o "$out/playspeed" playspeed.c
    "$out/playspeed" "$root/target/bin/play" "$out/plainplay" "$out" "$tools/bin/qemu-x86_64" "$tools/lib/ld-linux-x86-64.so.2" --library-path "$tools/lib"
    ;;
*)
    echo "bench/play.sh: needs x86-64 or Arm (aarch64), and this is $(uname -m)" >&2
    exit 2
    ;;
esac
