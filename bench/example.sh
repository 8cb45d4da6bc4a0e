#!/bin/sh
# Builds and runs example.c, and compares what it prints with example.stdout.
set -eu
here=$(cd "$(dirname "$0")" && pwd)
mkdir -p "$here/../target/bench"
"$here/run.sh" bench example example.c >"$here/../target/bench/example.stdout"
diff "$here/example.stdout" "$here/../target/bench/example.stdout"
echo "bench/example.sh: ok, $(wc -l <"$here/example.stdout" | tr -d ' ') lines as expected"
