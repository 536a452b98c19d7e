#!/bin/sh
# What the book of image ids and names costs where there are many. Makes a program in a temporary folder beside copies of the
# crates, builds it and times it.
set -eu
here=$(cd "$(dirname "$0")" && pwd)
root=$(cd "$here/../.." && pwd)
room=$(mktemp -d)
trap 'rm -rf "$room"' EXIT
. "$here/../copy_crates.sh"
copy_crates "$room" r9_memory model_text r9_text model_map model_images r9_sorted r9_ties r9_ids r9_screens r9_uses r9_images
echo "bench_images: r9_memory r9_images" >>"$room/crates.txt"
mkdir -p "$room/crates/bench_images/src"
cp "$root/bench/images/calls.rt.txt" "$room/crates/bench_images/src/main.rt"
cd "$room/crates/bench_images"
rt fmt >/dev/null
rt run
