#!/bin/sh
# Makes a shared object of the archive, calls it from Python (example.py) and compares what that prints with
# python.stdout. x86-64.
set -eu
here=$(cd "$(dirname "$0")" && pwd)
root=$(dirname "$here")
out=$root/target/bench
[ "$(uname -m)" = x86_64 ] || {
    echo "bench/python.sh: needs x86-64, and this is $(uname -m)" >&2
    exit 2
}
for tool in rt cc python3; do
    command -v $tool >/dev/null 2>&1 || {
        echo "bench/python.sh: missing: $tool" >&2
        exit 2
    }
done
mkdir -p "$out"
"$root/tools/build.sh" bench >"$out/bench.log" 2>&1 || {
    cat "$out/bench.log" >&2
    exit 1
}
cc -shared -o "$out/libcartvesper.so" -Wl,--whole-archive "$root/target/staticlib/libbench.a" -Wl,--no-whole-archive
python3 "$here/example.py" "$out/libcartvesper.so" >"$out/python.stdout"
diff "$here/python.stdout" "$out/python.stdout"
echo "bench/python.sh: ok, $(wc -l <"$here/python.stdout" | tr -d ' ') lines as expected"
