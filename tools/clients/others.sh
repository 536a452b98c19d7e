#!/bin/bash
# others.sh HOST PORT CACHE: rows of 9P clients of Debian's packages that run on Linux: ixpc (of libixp, which was last in Debian 11),
# diodcat, which speaks 9P2000.L, and what 9mount and mount.9P would ask of the kernel. apt fetches them into CACHE; nothing is installed.
set -u
host=$1
port=$2
cache=$3/packages
mkdir -p "$cache"
cd "$cache" || exit 2

unpack() { # FOLDER PACKAGE..
    local folder=$1 package
    shift
    for package in "$@"; do
        ls "${package}"_*.deb >/dev/null 2>&1 || apt-get -q download "$package" >/dev/null 2>&1
        for file in "${package}"_*.deb; do [ ! -e "$file" ] || dpkg-deb -x "$file" "$folder"; done
    done
}

fetch_ixp() {
    local uri words
    uri=$(apt-get indextargets --format '$(REPO_URI)' | head -n 1)
    mkdir -p lists/partial
    printf 'Types: deb\nURIs: %s\nSuites: bullseye\nComponents: main\nSigned-By: /usr/share/keyrings/debian-archive-keyring.gpg\n' "$uri" >old.sources
    words=(-q -o Dir::Etc::SourceParts=/dev/null -o "Dir::Etc::sourcelist=$PWD/old.sources" -o "Dir::State::Lists=$PWD/lists")
    words+=(-o Dir::Cache::pkgcache= -o Dir::Cache::srcpkgcache=)
    apt-get "${words[@]}" update >/dev/null 2>&1
    apt-get "${words[@]}" download libixp0 libixp-dev >/dev/null 2>&1
    rm -rf lists old.sources
}

[ -e unpacked/usr/bin/9mount ] || unpack unpacked diod libwrap0 libmunge2 9mount nfs-ganesha-mount-9p
ls libixp0_*.deb >/dev/null 2>&1 || fetch_ixp
[ -e ixp/usr/bin/ixpc ] || for file in libixp*.deb; do [ ! -e "$file" ] || dpkg-deb -x "$file" ixp; done

row() { printf '%-44s | %s\n' "$1" "${2:0:400}"; } # NAME SEEN

ixpc=$cache/ixp/usr/bin/ixpc
raw() { LD_LIBRARY_PATH=$(echo "$cache"/ixp/usr/lib/*-linux-gnu) USER=u timeout "$seconds" "$ixpc" -a "tcp!$host!$port" "$@" 2>&1; }
ix() { raw "$@" | tr '\n' ' ' | sed "s|$ixpc|ixpc|g"; }
seconds=8

row "ixpc ls /" "$(ix ls /)"
row "ixpc ls -l /" "$(ix ls -l /)"
row "ixpc read /hwsize" "$(ix read /hwsize)"
row "ixpc read /screen: bytes" "$(raw read /screen | wc -c)"
row "ixpc xwrite /wctl new" "[$(ix xwrite /wctl 'new -r 300 200 420 300')]"
window=$(ix ls /wsys | sed 's/ *$//; s/.* //; s|/||')
row "ixpc ls of the window" "$(ix ls "/wsys/$window")"
row "ixpc xwrite label, read" "[$(ix xwrite "/wsys/$window/label" hello)] $(ix read "/wsys/$window/label")"
row "ixpc xwrite cons, read text" "[$(ix xwrite "/wsys/$window/cons" text)] $(ix read "/wsys/$window/text")"
row "ixpc write snarf, read it" "$(echo hi | ix write /snarf; ix read /snarf)"
(seconds=3; ix read "/wsys/$window/cons" >cons.out) &
sleep 1
ix xwrite /kbdin line >/dev/null
ix xwrite /kbdin $'\n' >/dev/null
wait
row "ixpc read cons, a line typed (goes on)" "$(cat cons.out)"
row "ixpc read wctl (the first answer, then waits)" "$(seconds=3; ix read "/wsys/$window/wctl")"
row "ixpc create" "$(ix create /foo)"
row "ixpc remove" "$(ix remove /snarf)"
row "ixpc read of no file" "$(ix read /nosuch)"
row "ixpc write of 200 KiB to snarf" "$(head -c 204800 /dev/zero | tr '\0' x | ix write /snarf; raw read /snarf | wc -c)"
row "ixpc xwrite of a bad command" "$(ix xwrite /wctl bad)"
row "ixpc xwrite delete, ls of the window" "[$(ix xwrite /wctl "delete -id $window")] $(ix ls "/wsys/$window")"

LD_LIBRARY_PATH=$(echo "$cache"/unpacked/usr/lib/*-linux-gnu)
export LD_LIBRARY_PATH
point=$(mktemp -d)
row "diodcat (9P2000.L)" "$(timeout 8 unpacked/usr/sbin/diodcat -s "$host:$port" -a / screen 2>&1 | tr '\0' '.' | head -c 200)"
row "9mount -n: what it asks of the kernel" "$(unpacked/usr/bin/9mount -n -a 'new -r 10 10 200 150' -m 65560 "tcp!$host!$port" "$point" 2>&1)"
row "mount.9P: an attach name with blanks" "$(bash unpacked/usr/sbin/mount.9P "$host:new -r 10 10 200 150" "$point" -o "version=9p2000,port=$port,trans=tcp" 2>&1 | tr '\n' ' ')"
rmdir "$point"
