#!/bin/sh
# run.sh [ROUNDS]: proves and builds the pixel crates in a temporary folder, and times them beside pixman.
# Wants rt, a C compiler, and pixman's headers and library (Debian: libpixman-1-dev, pkg-config).
set -eu
here=$(cd "$(dirname "$0")" && pwd)
root=$(cd "$here/../.." && pwd)
kit=$(dirname "$(dirname "$(readlink -f "$(command -v rt)")")")
pixman=$(pkg-config --cflags --libs pixman-1)
room=$(mktemp -d)
trap 'rm -rf "$room"' EXIT

. "$here/../copy_crates.sh"
copy_crates "$room" r9_geom model_pixel r9_memory r9_chan r9_marks r9_steps r9_plane r9_kern r9_mem
echo 'pixel_calls staticlib: r9_geom r9_memory r9_chan r9_plane r9_steps r9_kern r9_mem model_pixel' >> "$room/crates.txt"
calls=$room/crates/pixel_calls
mkdir -p "$calls/src" "$calls/proofs/load" "$calls/proofs/pixels_load"
cp "$here/calls.rt.txt" "$calls/src/lib.rt"
cp "$here/load.antt.txt" "$calls/proofs/load/Invariants.antt"
cp "$here/pixels_load.antt.txt" "$calls/proofs/pixels_load/Invariants.antt"

(cd "$calls" && rt lib > "$room/log" 2>&1) || { tail -40 "$room/log"; exit 1; }
# shellcheck disable=SC2086
cc -O2 "$here/times.c" "$calls/out/libpixel_calls.a" "$kit/c/liblibc_c.a" $pixman -o "$room/times"
"$room/times" "${1:-101}"
