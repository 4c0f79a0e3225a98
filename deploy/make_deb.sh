#!/usr/bin/env bash
# Makes the Debian package from built programs: make_deb.sh PROGRAMS FOLDER
#
# PROGRAMS is a folder with etpd, etpctl and etptool. FOLDER gets colmjurr_VERSION_ARCH.deb, whose path is printed. The same programs and
# the same commit make the same bytes: the package has the moment of the commit, or without git that of the last entry of the changelog.
# SOURCE_DATE_EPOCH gives another one, and make_deb.sh --moment prints it. It needs dpkg-deb, gzip and strip (Debian: dpkg-dev, gzip, binutils).
set -euo pipefail
umask 022

deploy=$(dirname "$(realpath -- "$0")")
root=$(dirname "$deploy")
moment=${SOURCE_DATE_EPOCH:-$(git -C "$root" log -1 --format=%ct 2> /dev/null || date +%s --date "$(sed -n '0,/^ -- /s/^ -- .*>  //p' "$deploy/changelog")")}
export SOURCE_DATE_EPOCH=$moment
if [ "$1" = --moment ]; then
  echo "$moment"
  exit
fi

programs=$(realpath -- "$1")
mkdir -p "$2"
out=$(realpath -- "$2")
version=$(cat "$root/VERSION")
arch=$(dpkg --print-architecture)

tree=$(mktemp -d)
trap 'rm -r "$tree"' EXIT
chmod 755 "$tree"

# put MODE FOLDER FILE ..: files into a folder of the package
put() {
  install -d -m 755 "$tree/$2"
  install -m "$1" -t "$tree/$2" "${@:3}"
}

# packed FOLDER FILE: a text of the package, packed
packed() {
  install -d -m 755 "$tree/$1"
  gzip -9n < "$2" > "$tree/$1/$(basename "$2").gz"
}

put 755 usr/sbin "$programs/etpd"
put 755 usr/bin "$programs/etpctl" "$programs/etptool" "$deploy/colmjurr"
strip --strip-unneeded --remove-section=.comment --remove-section=.note "$tree"/usr/sbin/etpd "$tree"/usr/bin/etpctl "$tree"/usr/bin/etptool
put 755 usr/lib/colmjurr "$deploy/etpd-run" "$deploy/write-catalog"
put 644 lib/systemd/system "$deploy/etpd.service" "$deploy/etpd@.service"
put 644 etc/colmjurr "$deploy/etpd.toml"
install -d -m 755 "$tree/etc/nginx/sites-available" "$tree/etc/default"
install -m 644 "$deploy/nginx.conf" "$tree/etc/nginx/sites-available/colmjurr"
install -m 644 "$deploy/default" "$tree/etc/default/etpd"
put 644 usr/share/colmjurr/page "$root/clients/page/log.html"
put 644 usr/share/doc/colmjurr "$root/docs/OPERATING.md" "$root/docs/PROFILE.md" "$deploy/copyright"
put 644 usr/share/doc/colmjurr/examples "$deploy/stunnel-rig.conf" "$deploy/stunnel-office.conf" "$deploy/Containerfile" \
  "$root/clients/python/examples/alerts.yml"
for page in "$deploy"/man/*; do
  packed "usr/share/man/man${page##*.}" "$page"
done
gzip -9n < "$deploy/changelog" > "$tree/usr/share/doc/colmjurr/changelog.gz"
for program in etpd etpctl etptool colmjurr; do
  install -D -m 644 "$deploy/completion.bash" "$tree/usr/share/bash-completion/completions/$program"
done

# The Python package, without compiled files.
python=usr/lib/python3/dist-packages
install -d -m 755 "$tree/$python"
cp -r --no-preserve=mode "$root/clients/python/src/colmjurr" "$tree/$python/"
find "$tree/$python" -name __pycache__ -prune -exec rm -r {} +

install -d -m 755 "$tree/DEBIAN"
# In KiB, whatever the file system: each file rounded up, and 1 for each folder.
size=$(find "$tree" -path "$tree/DEBIAN" -prune -o -printf '%y %s\n' | awk '{ sum += $1 == "f" ? int(($2 + 1023) / 1024) : 1 } END { print sum }')
sed -e "s/@VERSION@/$version/" -e "s/@ARCH@/$arch/" -e "s/@SIZE@/$size/" "$deploy/debian/control" > "$tree/DEBIAN/control"
install -m 755 "$deploy/debian/postinst" "$deploy/debian/prerm" "$deploy/debian/postrm" "$tree/DEBIAN/"
(cd "$tree" && find etc -type f -printf '/%p\n' | LC_ALL=C sort) > "$tree/DEBIAN/conffiles"
(cd "$tree" && find . -path ./DEBIAN -prune -o -path ./etc -prune -o -type f -printf '%P\0' | LC_ALL=C sort -z | xargs -0 md5sum) > "$tree/DEBIAN/md5sums"
chmod 644 "$tree"/DEBIAN/{control,conffiles,md5sums}

dpkg-deb --root-owner-group -Zxz --build "$tree" "$out/colmjurr_${version}_$arch.deb" > /dev/null
echo "$out/colmjurr_${version}_$arch.deb"
