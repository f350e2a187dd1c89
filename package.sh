#!/usr/bin/env bash
# Makes of a proved `bac` a Debian package, a tarball and their checksums. The same program and the same files give the
# same octets, whenever and wherever: each time in them is SOURCE_DATE_EPOCH, or else the release's date in CHANGELOG.md.
#
#     ./package.sh [PROGRAM [FOLDER]]
#
# PROGRAM is crates/bac/out/bac and FOLDER out/package where none is given. `bac --version` must tell the version that
# stands first in CHANGELOG.md. It needs dpkg-deb, and tar and gzip of GNU.
set -eu
top=$(dirname "$(realpath -- "$0")")
program=$(realpath -- "${1:-$top/crates/bac/out/bac}")
folder=$(realpath -m -- "${2:-$top/out/package}")
export LC_ALL=C TZ=UTC
umask 022
cd "$top"

read -r version date < <(sed -nE 's/^## ([0-9.]+) \((.*)\)$/\1 \2/p' CHANGELOG.md)
told=$("$program" --version)
[ "$told" = "bac $version, ${told#*, }" ] || { echo "CHANGELOG.md begins with $version, and bac says: $told" >&2; exit 1; }
SOURCE_DATE_EPOCH=${SOURCE_DATE_EPOCH:-$(date -d "$date" +%s)}
export SOURCE_DATE_EPOCH
room=$(mktemp -d)
trap 'rm -rf "$room"' EXIT

# tree PREFIX UNITS: the files below a prefix, as /usr and the folder of units have them
tree() {
    local at=$1 units=$2 doc=$1/share/doc/mantelanise file
    install -D -m 755 "$program" "$at/bin/bac"
    install -D -m 644 docs/bac.1 "$at/share/man/man1/bac.1"
    install -D -m 644 examples/use/bac.bash "$at/share/bash-completion/completions/bac"
    mkdir -p "$units"
    install -m 644 examples/use/systemd/*.service examples/use/systemd/*.timer "$units"
    install -D -m 644 -t "$doc" CHANGELOG.md LICENSE-MIT LICENSE-APACHE docs/TOOLS.md docs/ARCHIVE.md docs/WAREHOUSE.md docs/SECURITY.md
    install -D -m 644 -t "$doc/examples" examples/use/plant.conf examples/use/records.* examples/use/page.css
    install -D -m 644 -t "$doc/examples/warehouse" examples/use/warehouse/*.sql examples/use/warehouse/*.py
    install -m 755 examples/use/warehouse/load "$doc/examples/warehouse"
    for file in examples/use/*.sh examples/use/*.py examples/use/trace2script.awk; do install -m 755 "$file" "$doc/examples"; done
}
# One time for all, and no folder's own rights: what mktemp made is for its owner alone.
settle() {
    chmod 755 "$1"
    find "$1" -exec touch -h -d "@$SOURCE_DATE_EPOCH" {} +
}

machine=$(uname -m)
name=mantelanise-$version-linux-$machine
tree "$room/$name" "$room/$name/lib/systemd/system"
settle "$room/$name"
tar -C "$room" --sort=name --format=ustar --owner=root:0 --group=root:0 -cf - "$name" | gzip -9n > "$room/$name.tar.gz"

# The package has its program in /usr/bin, and what Debian wants compressed.
case $machine in x86_64) machine=amd64 ;; aarch64) machine=arm64 ;; esac
deb=mantelanise_${version}_$machine
at=$room/$deb
tree "$at/usr" "$at/usr/lib/systemd/system"
sed -i 's|/usr/local/bin/bac|/usr/bin/bac|' "$at"/usr/lib/systemd/system/*
gzip -9n "$at/usr/share/man/man1/bac.1"
doc=$at/usr/share/doc/mantelanise
gzip -9n "$doc/CHANGELOG.md"
mv "$doc/CHANGELOG.md.gz" "$doc/changelog.gz"
{
    printf '%s\n\n' 'Mantelanise is licensed under the MIT License or the Apache License 2.0, as you choose; the second is whole in
/usr/share/common-licenses/Apache-2.0 and in LICENSE-APACHE.'
    cat LICENSE-MIT
} > "$doc/copyright"
# The C library's newest symbol that the program names.
libc=$(grep -aoE 'GLIBC_2\.[0-9]+' "$program" | sort -uV | tail -n 1)
mkdir "$at/DEBIAN"
cat > "$at/DEBIAN/control" <<CONTROL
Package: mantelanise
Version: $version
Architecture: $machine
Maintainer: The Mantelanise authors <authors@mantelanise.invalid>
Section: net
Priority: optional
Installed-Size: $(find "$at/usr" -type f -printf '%s\n' | awk '{ kib += int(($1 + 1023) / 1024) } END { print kib }')
Depends: libc6${libc:+ (>= ${libc#GLIBC_})}
Suggests: bash-completion, man-db, python3, sqlite3, postgresql-client
Description: historian and client tools for BACnet/IP
 The program bac copies trend logs from BACnet/IP devices into an SQLite file,
 every record once, and every stretch that a device had overwritten as a gap.
 It also prints logs, discovers and simulates devices, and reads and writes
 their properties. Its code is proved.
CONTROL
(cd "$at" && find usr -type f | sort | xargs md5sum > DEBIAN/md5sums)
settle "$at"
dpkg-deb --root-owner-group -Zgzip -z9 --build "$at" "$room/$deb.deb" > "$room/built"

mkdir -p "$folder"
install -m 644 "$room/$name.tar.gz" "$room/$deb.deb" "$folder"
(cd "$folder" && sha256sum "$deb.deb" "$name.tar.gz" > SHA256SUMS && cat SHA256SUMS)
