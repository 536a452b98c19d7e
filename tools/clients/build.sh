#!/bin/bash
# build.sh CACHE FLAVOR: makes CACHE/program-FLAVOR. FLAVOR is drawterm, which has the fourth edition's code of 2017, or
# drawterm-9front, of 2022: Debian's source packages, which apt fetches into CACHE, and of which nothing is kept elsewhere. Of them are
# the mount driver, libc, what drawterm has of libdraw, and libmemdraw, libmemlayer and devdraw as the other side. The rest is
# the C files beside this one. Needs: a Debian or a relative of it with its archive of sources, gcc, x86-64 or arm64.
set -eu
here=$(cd "$(dirname "$0")" && pwd)
cache=$1
flavor=$2
objects=$cache/objects-$flavor
program=$cache/program-$flavor
if [ -e "$program" ] && [ -z "$(find "$here" -newer "$program" \( -name '*.[ch]' -o -name build.sh \))" ]; then exit 0; fi
mkdir -p "$cache/sources" "$objects"

find_sources() {
    find "$cache/sources" -maxdepth 1 -type d -name "$flavor-[0-9][0-9~]*" | head -n 1
}

# The archive of sources beside the archive of packages that apt reads already; apt's own lists stay as they are.
fetch() {
    local lists=$cache/lists list=$cache/sources.list
    mkdir -p "$lists/partial"
    if [ -e /etc/apt/sources.list.d/debian.sources ]; then
        list=$cache/list.sources
        awk '/^$/{exit} /^Types:/{print "Types: deb-src"; next} {print}' /etc/apt/sources.list.d/debian.sources >"$list"
    else
        sed -n 's/^deb /deb-src /p' /etc/apt/sources.list >"$list"
    fi
    local words=(-q -o Dir::Etc::SourceParts=/dev/null -o "Dir::Etc::sourcelist=$list" -o "Dir::State::Lists=$lists")
    apt-get "${words[@]}" update >/dev/null 2>&1 || true
    (cd "$cache/sources" && apt-get "${words[@]}" source --download-only --tar-only "$flavor" && tar xzf "${flavor}"_*.orig.tar.gz)
    rm -rf "$lists" "$list"
}

[ -n "$(find_sources)" ] || fetch
sources=$(find_sources)
[ -n "$sources" ] || { echo "build.sh: apt gave no sources of $flavor; see whether apt-get update works" >&2; exit 1; }
case $(uname -m) in
    x86_64) machine=posix-amd64 ;;
    aarch64) machine=posix-arm64 ;;
    *) echo "build.sh: $flavor is built for x86-64 and arm64 alone" >&2; exit 1 ;;
esac
[ -d "$sources/$machine" ] || { echo "build.sh: $flavor has no sources for $machine" >&2; exit 1; }

flags=(-w -fcommon -fno-strict-aliasing "-I$sources" "-I$sources/include" "-I$sources/kern" -c -D_THREAD_SAFE -DPTHREAD -pthread -O1 -g -std=gnu89)
kernel="allocb chan data dev devcons devdraw devfs-posix devip devip-posix devmnt devpipe devroot error parse pgrp procinit rwlock sleep stub sysfile qio qlock waserror posix"
if [ "$flavor" = drawterm ]; then
    kernel="$kernel cache smalloc sysproc uart"
else
    kernel="$kernel alloc devkbd devenv devmouse"
    flags+=(-DNINE)
fi

compile() { # PREFIX FILE..
    local prefix=$1 file
    shift
    for file in "$@"; do
        [ ! -e "$file" ] || gcc "${flags[@]}" -o "$objects/$prefix-$(basename "$file" .c).o" "$file"
    done
}

# What a test program, or a maker of tables, has a main of its own in is left out.
if [ ! -e "$objects/done" ]; then
    for name in $kernel; do compile kernel "$sources/kern/$name.c"; done
    for name in $(grep -o '[a-zA-Z0-9_]*\.\$O' "$sources/libc/Makefile" | sed 's/\.\$O//' | grep -v '^crypt$'); do
        compile libc "$sources/libc/$name.c"
    done
    compile machine "$sources/$machine/getcallerpc.c" "$sources/$machine/tas.c"
    compile libip "$sources"/libip/*.c
    for library in libdraw libmemdraw libmemlayer; do
        for file in "$sources/$library"/*.c; do
            case $(basename "$file") in mkcmap.c | arctest.c | drawtest.c | iprint.c) ;; *) compile "$library" "$file" ;; esac
        done
    done
    touch "$objects/done"
fi
for name in main rows files drawing text images windows input times shapes libdraw device devices; do compile own "$here/$name.c"; done
gcc -c -w -O1 -o "$objects/own-host.o" "$here/host.c"
gcc -pthread -o "$program" "$objects"/*.o -lm
