#!/usr/bin/env bash
# Installs the program, the C library with its header and its file for pkg-config, and the manual pages.
#
#     tools/install.sh PREFIX
#
# PREFIX gets bin/rio9, lib/librio9.a, lib/librio9.so, include/rio9.h, lib/pkgconfig/rio9.pc and share/man/man1. If DESTDIR is set, all
# of it goes below DESTDIR, and the files name PREFIX alone. What was built is taken from crates/rio9/out/rio9, which is left
# out if it is not there, or RIO9_PROGRAM names another; RIO9_ARCHIVE names the archive of the library. Needs: cc and ar; rt,
# to find the toolchain's part of the archive.
set -euo pipefail
umask 022
[ $# -eq 1 ] || { echo "install.sh: the folder to install into is wanted: tools/install.sh PREFIX" >&2; exit 2; }
case $1 in /*) prefix=$1 ;; *) prefix=$PWD/$1 ;; esac
repository=$(cd "$(dirname "$0")/.." && pwd)
program=${RIO9_PROGRAM:-$repository/crates/rio9/out/rio9}
archive=${RIO9_ARCHIVE:-librio9_c.a}
[ -f "$archive" ] || { echo "install.sh: there is no $archive: RIO9_ARCHIVE names one (docs/EMBED.md)" >&2; exit 2; }
archive=$(realpath "$archive")
room=$(mktemp -d)
trap 'rm -rf "$room"' EXIT
version=$(sed -n 's/^__version__ = "\(.*\)"/\1/p' "$repository/python/rio9/__init__.py")
put() { install -D -m "$1" "$2" "${DESTDIR:-}$prefix/$3"; }

# The archive with the functions of the toolchain that call malloc, realloc and free, if it has them not yet.
cp "$archive" "$room/librio9.a"
if ! nm "$archive" 2>/dev/null | grep -q ' T rattle_alloc$'; then
	kit=$(dirname "$(dirname "$(readlink -f "$(command -v rt)")")")
	mkdir "$room/kit"
	(cd "$room/kit" && ar x "$kit/c/liblibc_c.a" && ar qs "$room/librio9.a" ./*.o)
fi

# The shared library, which shows the three functions of the header alone.
printf '{ global: rio9_open; rio9_call; rio9_close; local: *; };\n' > "$room/exports"
cc -shared -o "$room/librio9.so.0" -Wl,-soname,librio9.so.0 -Wl,--version-script,"$room/exports" -Wl,-z,defs -Wl,--gc-sections \
	-Wl,-u,rio9_open -Wl,-u,rio9_call -Wl,-u,rio9_close "$room/librio9.a"

put 644 "$room/librio9.a" lib/librio9.a
put 755 "$room/librio9.so.0" lib/librio9.so.0
ln -sf librio9.so.0 "${DESTDIR:-}$prefix/lib/librio9.so"
put 644 "$repository/include/rio9.h" include/rio9.h
sed "s|@PREFIX@|$prefix|; s|@VERSION@|$version|" "$repository/rio9.pc.in" > "$room/rio9.pc"
put 644 "$room/rio9.pc" lib/pkgconfig/rio9.pc
for page in rio9 rio9d; do put 644 "$repository/package/$page.1" "share/man/man1/$page.1"; done
if [ -x "$program" ]; then
	put 755 "$program" bin/rio9
else
	echo "install.sh: there is no program $program, so bin/rio9 is left out" >&2
fi
