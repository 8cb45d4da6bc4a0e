#!/bin/sh
# check.sh [ROUNDS]: looks for a byte touched beside what is lent, and for what C leaves undefined. Runs check.c between
# pages that may not be touched (needs no tool); then check.c, example.c, differ.c and hex.c under cc's sanitizers,
# which watch the C side; then check.c and example.c under valgrind, which watches the library too. A tool that is not
# there is named, and its part left out. On Arm, where the archive runs in an emulator, the first part alone is run.
set -eu
here=$(cd "$(dirname "$0")" && pwd)
root=$(dirname "$here")
out=$root/target/bench
rounds=${1:-2000}
case $(uname -m) in
x86_64) ;;
aarch64)
    "$here/run.sh" bench check check.c -- pages 1 "$rounds"
    echo "bench/check.sh: ok but for what an emulator cannot run: sanitizers valgrind"
    exit 0
    ;;
*)
    echo "bench/check.sh: needs x86-64 or Arm (aarch64), and this is $(uname -m)" >&2
    exit 2
    ;;
esac
for tool in rt cc; do
    command -v $tool >/dev/null 2>&1 || {
        echo "bench/check.sh: missing: $tool" >&2
        exit 2
    }
done
mkdir -p "$out"
"$root/tools/build.sh" bench >"$out/bench.log" 2>&1 || {
    cat "$out/bench.log" >&2
    exit 1
}
archive=$root/target/staticlib/libbench.a
cd "$here"
missing=

cc -std=gnu11 -O2 -g -Wall -Wextra -o "$out/check" check.c "$archive"
cc -std=gnu11 -O2 -g -Wall -Wextra -o "$out/example" example.c "$archive"
"$out/check" pages 1 "$rounds"

sanitizers=-fsanitize=address,undefined
echo 'int main(void) { return 0; }' >"$out/empty.c"
if cc $sanitizers -o "$out/empty" "$out/empty.c" 2>"$out/sanitizers.log" && "$out/empty"; then
    set -- -std=gnu11 -O1 -g -fno-sanitize-recover=all $sanitizers
    cc "$@" -o "$out/check-sanitized" check.c "$archive"
    cc "$@" -o "$out/example-sanitized" example.c "$archive"
    cc "$@" -o "$out/differ-sanitized" differ.c plain.c "$archive"
    cc "$@" -o "$out/hex-sanitized" hex.c plainhex.c plain.c "$archive"
    "$out/check-sanitized" heap 2 "$rounds"
    "$out/example-sanitized" >"$out/example.sanitized"
    diff example.stdout "$out/example.sanitized"
    "$out/differ-sanitized" 3 $((rounds / 100 + 1))
    "$out/hex-sanitized" 5 "$rounds" >"$out/hex.sanitized"
    echo "bench/check.sh: cc $sanitizers: nothing found in check.c, example.c, differ.c, hex.c, plain.c and plainhex.c"
else
    missing="$missing sanitizers"
    echo "bench/check.sh: missing: cc $sanitizers does not build or run a program here: the C side was not watched" >&2
fi

if command -v valgrind >/dev/null 2>&1; then
    valgrind -q --leak-check=full --error-exitcode=3 "$out/check" heap 4 $((rounds / 20 + 1))
    valgrind -q --leak-check=full --error-exitcode=3 "$out/example" >"$out/example.valgrind"
    diff example.stdout "$out/example.valgrind"
    echo "bench/check.sh: valgrind: nothing found in check.c and example.c, the library's code among it"
else
    missing="$missing valgrind"
    echo "bench/check.sh: missing: valgrind: the library's own code was watched by untouchable pages alone" >&2
fi
[ -z "$missing" ] && echo "bench/check.sh: ok" || echo "bench/check.sh: ok but for what is missing:$missing"
