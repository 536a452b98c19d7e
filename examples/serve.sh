#!/bin/sh
# A session with a running server: windows, drawing, keys, clicks, and a picture of the screen.
#
#     crates/rio9/out/rio9 serve --size 320x240 --listen 127.0.0.1:5640 --workers 4 --conns 100 > serve.record &
#     examples/serve.sh 127.0.0.1:5640 serve.png
#
# Each line that begins with `rio` is a session of its own, made by python/rio9d client.
set -eu
address=$1
picture=$2
python=$(dirname "$0")/../python
rio() { "$python/rio9d" client "$address" "$@"; }

# Lines of draw messages: an image of one pixel that repeats, and a rectangle of a window filled with one. Id 9 is the full mask.
colour() { echo "b id=$1 screenid=0 refresh=0 chan=x8r8g8b8 repl=1 r=0,0,1,1 clipr=-10000,-10000,10000,10000 color=$2"; }
mask() { echo "b id=9 screenid=0 refresh=0 chan=k1 repl=1 r=0,0,1,1 clipr=-10000,-10000,10000,10000 color=0xffffffff"; }
fill() { echo "d dstid=1 srcid=$1 maskid=9 dstr=$2 srcp=0,0 maskp=0,0"; }

# A window. It stays until it is deleted, since it belongs to no session.
one=$(rio new -r 16 24 216 136)
echo "window $one is $(rio cat "wsys/$one/winname")"
rio write "wsys/$one/label" sea
{
	echo "n id=1 name=$(rio cat "wsys/$one/winname")"
	mask
	colour 2 0xbfe3ffff
	colour 3 0xf2b134ff
	colour 4 0x2b6cb0ff
	colour 5 0xfffffff0
	colour 6 0x7a3b1eff
	fill 2 20,28,212,132
	fill 3 168,40,192,64
	fill 3 172,36,188,68
	fill 3 164,44,196,60
	fill 4 20,104,212,132
	for row in 0 1 2 3 4 5 6 7 8 9 10 11; do
		fill 5 $((96 - 3 * row)),$((52 + 4 * row)),96,$((56 + 4 * row))
		fill 5 100,$((52 + 4 * row)),$((100 + 2 * row)),$((56 + 4 * row))
	done
	fill 6 52,104,140,110
	fill 6 58,110,134,114
} | rio draw

# Another one, which hosts a rio with a window of its own.
two=$(rio new -r 120 80 304 216)
rio wctl host -id "$two"
rio wctl new -r 140 104 280 190 -id "$two"
rio wctl move -minx 112 -miny 88 -id "$two"
echo "windows: $(rio ls wsys | tr '\n' ' ')"
echo "$(rio cat "wsys/$two/wctl")"

# A click raises the first window and makes it the one that gets the keys. Its program reads what the mouse did.
rio click 40 40
rio cat "wsys/$one/mouse" | cut -c 1-37

# A read that waits, and the line that ends it.
rio cat "wsys/$one/cons" &
rio type 'set sail\b\b\b\bcourse\n'
wait

# A pixel of the screen as it is now (blue, green, red), and all of it.
rio draw 'r id=0 r=30,30,31,31' | od -A n -t u1
rio screen "$picture" --scale 2
