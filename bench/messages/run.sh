#!/bin/sh
# How many draw messages are read in a second. Makes a program in a temporary folder beside copies of the crates, builds it and
# times it: run.sh [ROUNDS].
set -eu
rounds=${1:-20000000}
here=$(cd "$(dirname "$0")" && pwd)
root=$(cd "$here/../.." && pwd)
room=$(mktemp -d)
trap 'rm -rf "$room"' EXIT
. "$here/../copy_crates.sh"
copy_crates "$room" r9_memory r9_geom model_text r9_text model_dmsg r9_dmsg
echo "bench_messages: r9_memory r9_geom r9_dmsg" >>"$room/crates.txt"
mkdir -p "$room/crates/bench_messages/src"
sed "s/ROUNDS/$rounds/" "$root/bench/messages/main.rt.txt" >"$room/crates/bench_messages/src/main.rt"
cd "$room/crates/bench_messages"
rt fmt >/dev/null
rt run
