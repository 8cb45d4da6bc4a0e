#!/bin/sh
# Runs split.c over the four numbers of the split and compares what it prints with split.stdout.
set -eu
here=$(cd "$(dirname "$0")" && pwd)
mkdir -p "$here/../target/bench"
"$here/run.sh" split split split.c >"$here/../target/bench/split.stdout"
diff "$here/split.stdout" "$here/../target/bench/split.stdout"
echo "bench/split.sh: ok, $(wc -l <"$here/split.stdout" | tr -d ' ') lines as expected"
