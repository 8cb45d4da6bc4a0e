#!/bin/sh
# play.sh [--part M95512|M95512-D|M95M01] [FILE.trace ..]: proves the player and plays each trace, on the M95512 or on
# the part named; with no trace named, plays every example and compares it with its .out file. `play.sh --help` prints
# this.
# What is proved and has not changed is not proved again.
# The player is an x86-64 program: on Arm the toolchain's own emulator runs it.
set -eu
part=
case ${1-} in
--help)
    sed -n '2,/^set/s/^# //p' "$0"
    exit 0
    ;;
--part)
    [ $# -gt 1 ] || {
        echo "play.sh: after --part comes M95512, M95512-D or M95M01" >&2
        exit 2
    }
    part=$2
    shift 2
    ;;
esac
here=$(cd "$(dirname "$0")" && pwd)
root=$(dirname "$here")
log=$root/target/play.log
for trace in "$@"; do
    [ -r "$trace" ] || {
        echo "play.sh: no such trace: $trace" >&2
        exit 2
    }
done
mkdir -p "$root/target"
[ -x "$root/target/bin/play" ] || echo "play.sh: proving the player, some minutes the first time (log: target/play.log)" >&2
"$root/tools/build.sh" play >"$log" 2>&1 || {
    cat "$log" >&2
    exit 1
}
play() { # [--part PART] FILE
    case $(uname -m) in
    aarch64)
        tools=$(dirname "$(rt doc)")/on/aarch64/toolchain
        "$tools/bin/qemu-x86_64" "$tools/lib/ld-linux-x86-64.so.2" --library-path "$tools/lib" "$root/target/bin/play" "$@"
        ;;
    *) "$root/target/bin/play" "$@" ;;
    esac
}
if [ $# -gt 0 ]; then
    for trace in "$@"; do
        play ${part:+--part "$part"} "$trace"
    done
    exit 0
fi
bad=0
for trace in "$here"/*.trace; do
    name=$(basename "$trace" .trace)
    on=$part
    case $name in
    lock) on=M95512-D ;; # a part that has an identification page
    megabit) on=M95M01 ;; # the part with three address bytes
    esac
    if play ${on:+--part "$on"} "$trace" | cmp -s - "$here/$name.out"; then
        echo "$name: as its answer"
    else
        echo "$name: differs from its answer"
        bad=1
    fi
done
exit $bad
