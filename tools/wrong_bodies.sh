#!/bin/sh
# Tries the wrong bodies that the gate leaves out: those of wrong-bodies/NAME/, for each crate that is named, or for all. The
# prover must refuse each. It lays them, as they stand, into a clone of what was last committed, in a temporary folder, runs
# `rt must-fail` there, and ends with its status. Needs git and rt.
#
#     tools/wrong_bodies.sh [NAME ..]
set -eu
root=$(cd "$(dirname "$0")/.." && pwd)
if [ $# -eq 0 ]; then
    for folder in "$root"/wrong-bodies/*/; do
        set -- "$@" "$(basename "$folder")"
    done
fi
for name in "$@"; do
    if ! ls "$root/wrong-bodies/$name"/*.edit >/dev/null 2>&1; then
        echo "wrong_bodies.sh: wrong-bodies/ has none of a crate '$name'" >&2
        exit 2
    fi
done

work=$(mktemp -d)
trap 'rm -rf "$work"' EXIT
trap 'exit 130' INT TERM
git clone -q "$root" "$work/repository"
for name in "$@"; do
    edits=$work/repository/crates/$name/must-fail
    mkdir -p "$edits"
    # Those that the gate tries itself are left out here.
    rm -f "$edits"/*.edit
    cp "$root/wrong-bodies/$name"/*.edit "$edits/"
done
cd "$work/repository"
rt must-fail "$@"
