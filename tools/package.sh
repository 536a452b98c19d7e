#!/usr/bin/env bash
# Makes the Debian package of the proved program and of the Python package, and the folder from which the image is built.
#
#     tools/package.sh FOLDER [PROGRAM]
#
# FOLDER gets rio9_VERSION_ARCHITECTURE.deb and image/. PROGRAM is crates/rio9/out/rio9 if none is named. The same sources and
# program give the same bytes. Needs: dpkg-deb, ldd, gzip, and Debian's python3 with pip and setuptools. No network is used.
set -euo pipefail
umask 022
repository=$(cd "$(dirname "$0")/.." && pwd)
[ $# -ge 1 ] || { echo "package.sh: a folder for the package is wanted: tools/package.sh FOLDER [PROGRAM]" >&2; exit 2; }
program=${2:-$repository/crates/rio9/out/rio9}
[ -x "$program" ] || { echo "package.sh: there is no program $program: build it by rt run, or name one" >&2; exit 2; }
program=$(realpath "$program")
mkdir -p "$1"
folder=$(realpath "$1")
room=$(mktemp -d)
trap 'rm -rf "$room"' EXIT
python=/usr/bin/python3
SOURCE_DATE_EPOCH=$(git -C "$repository" log -1 --format=%ct 2>/dev/null || stat -c %Y "$repository/package/control")
export SOURCE_DATE_EPOCH PYTHONDONTWRITEBYTECODE=1 PIP_DISABLE_PIP_VERSION_CHECK=1

version=$(sed -n 's/^__version__ = "\(.*\)"/\1/p' "$repository/python/rio9/__init__.py")
architecture=$(dpkg --print-architecture)
root=$room/root

# The Python package, as pip installs it, from a copy: the build leaves files beside the sources.
cp -r "$repository/python" "$room/python"
modules=$root/usr/lib/python3/dist-packages
"$python" -m pip install --quiet --no-index --no-deps --no-build-isolation --no-compile --root-user-action ignore \
	--target "$modules" "$room/python"
rm -rf "$modules"/bin "$modules"/rio9-*.dist-info/{RECORD,direct_url.json,REQUESTED}

# The programs, and what stands around them.
put() { install -D -m "$1" "$2" "$root/$3"; }
put 755 "$program" usr/bin/rio9
strip --strip-unneeded "$root/usr/bin/rio9"
put 755 "$repository/python/rio9d" usr/bin/rio9d
sed -i '1s|.*|#!/usr/bin/python3|' "$root/usr/bin/rio9d"
for name in rio9 rio9d; do
	put 644 "$repository/package/$name.1" "usr/share/man/man1/$name.1"
	put 644 "$repository/package/$name.bash" "usr/share/bash-completion/completions/$name"
done
for unit in service socket; do put 644 "$repository/package/rio9@.$unit" "lib/systemd/system/rio9@.$unit"; done
put 644 "$repository/package/copyright" usr/share/doc/rio9/copyright
put 644 "$repository/package/changelog" usr/share/doc/rio9/changelog
gzip -9 -n "$root"/usr/share/man/man1/*.1 "$root/usr/share/doc/rio9/changelog"

# The Debian package.
mkdir "$root/DEBIAN"
size=$(du -k -s --apparent-size "$root" | cut -f 1)
sed "s/VERSION/$version/; s/ARCHITECTURE/$architecture/; s/KILOBYTES/$size/" "$repository/package/control" > "$root/DEBIAN/control"
(cd "$root" && find usr lib -type f -print0 | sort -z | xargs -0 md5sum) > "$root/DEBIAN/md5sums"
find "$root" -newermt "@$SOURCE_DATE_EPOCH" -exec touch -h -d "@$SOURCE_DATE_EPOCH" {} +
package=$folder/rio9_${version}_$architecture.deb
dpkg-deb --root-owner-group --build "$root" "$package" > /dev/null

# The image: the program, and the libraries that it loads.
rm -rf "$folder/image"
install -D -m 755 "$root/usr/bin/rio9" "$folder/image/rio9"
ldd "$program" | grep -o '/[^ ]*' | while read -r library; do
	install -D -m 755 "$library" "$folder/image$library"
done
echo "$package"
