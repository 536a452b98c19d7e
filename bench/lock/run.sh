#!/bin/sh
# Times turns at a small value by 1, 2 and 4 threads, with r9_lock and with std's Mutex in plain Rust, in turn in one run,
# and prints the nanoseconds of a turn and the ratios. Needs rt and rustc. It builds in a temporary folder.
set -eu
here=$(cd "$(dirname "$0")" && pwd)
root=$(cd "$here/../.." && pwd)
work=$(mktemp -d)
trap 'rm -rf "$work"' EXIT

. "$here/../copy_crates.sh"
copy_crates "$work" r9_memory r9_lock
echo 'lock_time: r9_lock' >>"$work/crates.txt"
mkdir -p "$work/crates/lock_time/src" "$work/crates/lock_time/proofs/take_turns"
cp "$root/HANDLES" "$work/"
cp "$here/turns.rt.txt" "$work/crates/lock_time/src/main.rt"
cp "$here/invariant.antt.txt" "$work/crates/lock_time/proofs/take_turns/Invariants.antt"

rustc -O -o "$work/mutex" "$here/mutex.rs"
(cd "$work/crates/lock_time" && rt run) >"$work/build.log" 2>&1 || {
    cat "$work/build.log"
    exit 1
}

round=0
while [ $round -lt "${ROUNDS:-4}" ]; do
    "$work/crates/lock_time/out/lock_time" | sed 's/^/lock /'
    "$work/mutex" | sed 's/^/mutex /'
    round=$((round + 1))
done >"$work/times"
sort -k1,1 -k2,2n -k3,3n "$work/times" | awk '
    # The median of each group, in nanoseconds a turn, with the least beside it. Each line is 10,000,000 turns.
    { key = $1 " " $2; count[key]++; time[key, count[key]] = $3 / 10000000 }
    function median(key) { return time[key, int((count[key] + 1) / 2)] }
    END {
        print "threads  lock ns (least)  mutex ns (least)  lock / mutex"
        for (threads = 1; threads <= 4; threads *= 2) {
            a = "lock " threads; b = "mutex " threads
            printf "%7d  %7.1f (%5.1f)  %8.1f (%5.1f)  %.2f (%.2f)\n", threads, median(a), time[a, 1], median(b), time[b, 1], median(a) / median(b), time[a, 1] / time[b, 1]
        }
        printf "turns a second of 4 threads, over those of 1: lock %.2f, mutex %.2f\n", median("lock 1") / median("lock 4"), median("mutex 1") / median("mutex 4")
    }'
