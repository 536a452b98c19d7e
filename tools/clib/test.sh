#!/usr/bin/env bash
# Tests the C library.
#
#     tools/clib/test.sh [PREFIX]
#
# PREFIX is where tools/install.sh has installed; if none is named, it installs into a temporary folder. It compiles the header as C99 and
# as C++, runs the examples of examples/c and the programs beside this script, and does the same by clang with its checks of addresses,
# of undefined behaviour and of leaks. Each program that fails is named, and ends the script with status 1. Needs: cc, c++ and
# pkg-config. clang, and SDL2 with Xvfb (Debian: libsdl2-dev, xvfb, xauth), are used if they are there.
set -euo pipefail
here=$(cd "$(dirname "$0")" && pwd)
repository=$(cd "$here/../.." && pwd)
room=$(mktemp -d)
trap 'rm -rf "$room"' EXIT
prefix=${1:-$room/prefix}
[ $# -ge 1 ] || "$repository/tools/install.sh" "$prefix"
export PKG_CONFIG_PATH=$prefix/lib/pkgconfig
shared=($(pkg-config --cflags rio9) -I"$repository/examples/c")
strict=(-O2 -g -Wall -Wextra -Werror -Wno-unused-function)
check=(-fsanitize=address,undefined -fno-sanitize-recover=all -fno-omit-frame-pointer)
archive=$prefix/lib/librio9.a
calls=${RIO9_CALLS:-1000000}

run() { echo "  $*"; "$@" || { echo "test.sh: failed: $*" >&2; exit 1; }; }

# The header alone, in each language.
echo '#include "rio9.h"' > "$room/header.c"
run cc -std=c99 -pedantic "${strict[@]}" "${shared[@]}" -fsyntax-only "$room/header.c"
run c++ -std=c++98 -pedantic "${strict[@]}" "${shared[@]}" -Wno-long-long -fsyntax-only -x c++ "$room/header.c"

# Every program, by one compiler with these flags.
build_and_try() {
	local cc=$1 bin=$room/$1 rounds=$2
	shift 2
	mkdir -p "$bin"
	for source in "$repository"/examples/c/{window,replies}.c "$here"/{statuses,threads,many}.c; do
		"$cc" "${strict[@]}" "${shared[@]}" -D_GNU_SOURCE "$@" "$source" "$archive" -pthread -o "$bin/$(basename "$source" .c)"
	done
	"$cc" "${strict[@]}" "${shared[@]}" "$@" "$here/refused.c" "$archive" -Wl,--wrap=malloc,--wrap=realloc,--wrap=free -o "$bin/refused"
	for wanted in "$repository"/examples/*.replies; do
		local size=()
		[[ $wanted != */size.replies ]] || size=(320 240)
		"$bin/replies" "${size[@]}" < "${wanted%.replies}.record" | cmp - "$wanted"
	done
	"$bin/window" > "$bin/picture.ppm"
	[ "$(head -c 15 "$bin/picture.ppm")" = "$(printf 'P6\n160 120\n255\n')" ]
	run "$bin/statuses"
	run "$bin/refused"
	run "$bin/threads"
	run "$bin/many" "$rounds"
}
build_and_try cc "$calls"
if command -v clang > /dev/null; then
	build_and_try clang "$((calls / 100))" "${check[@]}"
else
	echo "  skipped: clang is not installed"
fi

# The same program by the shared library.
cc "${strict[@]}" "${shared[@]}" "$repository/examples/c/window.c" $(pkg-config --libs rio9) -Wl,-rpath,"$prefix/lib" -o "$room/window"
"$room/window" | cmp - "$room/cc/picture.ppm"

# A host that shows the display.
if pkg-config --exists sdl2 && command -v xvfb-run > /dev/null; then
	cc "${strict[@]}" "${shared[@]}" $(pkg-config --cflags sdl2) "$repository/examples/c/host.c" "$archive" $(pkg-config --libs sdl2) -o "$room/host"
	said=$(SDL_RENDER_DRIVER=software xvfb-run -a "$room/host" 200)
	echo "  $said"
	[[ $said == *"the picture is the display" ]]
else
	echo "  skipped: SDL2 or Xvfb is not installed"
fi
echo "the C library: all passed"
