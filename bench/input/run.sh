#!/bin/sh
# run.sh: proves and builds the crates of the mouse and the console in a temporary folder, and times their calls.
# Prints the nanoseconds of ten million rounds of each. Wants rt.
set -eu
here=$(cd "$(dirname "$0")" && pwd)
root=$(cd "$here/../.." && pwd)
room=$(mktemp -d)
trap 'rm -rf "$room"' EXIT

. "$here/../copy_crates.sh"
copy_crates "$room" r9_memory model_text r9_text model_mouse r9_mouse model_console r9_cons
echo 'input_calls: r9_memory r9_text r9_mouse r9_cons' >> "$room/crates.txt"
mkdir -p "$room/crates/input_calls/src"
cp "$here/calls.rt.txt" "$room/crates/input_calls/src/main.rt"
cd "$room/crates/input_calls" && rt run 2> "$room/log" || { tail -40 "$room/log"; exit 1; }
