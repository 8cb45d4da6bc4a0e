#!/bin/sh
# Builds and runs example.cpp, the library from C++, and compares what it prints with cplusplus.stdout. x86-64.
set -eu
here=$(cd "$(dirname "$0")" && pwd)
root=$(dirname "$here")
out=$root/target/bench
[ "$(uname -m)" = x86_64 ] || {
    echo "bench/cplusplus.sh: needs x86-64, and this is $(uname -m)" >&2
    exit 2
}
for tool in rt c++; do
    command -v $tool >/dev/null 2>&1 || {
        echo "bench/cplusplus.sh: missing: $tool" >&2
        exit 2
    }
done
mkdir -p "$out"
[ -f "$root/target/staticlib/libbench.a" ] ||
    echo "bench/cplusplus.sh: proving bench, some minutes the first time (log: target/bench/bench.log)" >&2
"$root/tools/build.sh" bench >"$out/bench.log" 2>&1 || {
    cat "$out/bench.log" >&2
    exit 1
}
c++ -std=c++17 -O2 -Wall -Wextra -I"$here" -o "$out/example_cpp" "$here/example.cpp" "$root/target/staticlib/libbench.a"
"$out/example_cpp" >"$out/cplusplus.stdout"
diff "$here/cplusplus.stdout" "$out/cplusplus.stdout"
echo "bench/cplusplus.sh: ok, $(wc -l <"$here/cplusplus.stdout" | tr -d ' ') lines as expected"
