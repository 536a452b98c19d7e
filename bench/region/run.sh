#!/bin/sh
# Times `add` and `cut` of r9_region on regions of 250 to 2,000 parts. Needs rt. It proves and builds the crates in a
# temporary folder.
set -eu
here=$(cd "$(dirname "$0")" && pwd)
root=$(cd "$here/../.." && pwd)
room=$(mktemp -d)
trap 'rm -rf "$room"' EXIT

. "$here/../copy_crates.sh"
copy_crates "$room" r9_geom r9_memory r9_region
echo 'region_calls: r9_geom r9_memory r9_region' >>"$room/crates.txt"
mkdir -p "$room/crates/region_calls/src"
cp "$here/calls.rt.txt" "$room/crates/region_calls/src/main.rt"

(cd "$room/crates/region_calls" && rt run) >"$room/log" 2>&1 || {
	tail -40 "$room/log"
	exit 1
}
round=0
while [ $round -lt "${ROUNDS:-3}" ]; do
	"$room/crates/region_calls/out/region_calls"
	round=$((round + 1))
done
