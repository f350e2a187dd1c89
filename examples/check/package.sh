#!/usr/bin/env bash
# Checks what package.sh makes of a program: the same octets twice; installed in a root that has nothing but the C
# library, it finds, reads and keeps the logs of a device that it serves, with its man page, completion and units; and
# taken out it leaves nothing. The tarball has the same program.
#
#     examples/check/package.sh [PROGRAM]
#
# PROGRAM is crates/bac/out/bac where none is given. It needs dpkg, man, python3, and leave to change the root: as root, or
# in a namespace of its own. The last line is `N passed, M failed`.
set -u
cd "$(dirname "$0")" || exit 1
program=$(realpath -- "${1:-../../crates/bac/out/bac}")
. ./common.sh

# What is missing is a failure: nothing here is checked then.
as_root=()
[ "$(id -u)" -eq 0 ] || as_root=(unshare --map-root-user)
for word in dpkg dpkg-deb man python3; do
    command -v "$word" > /dev/null || { echo "$word isn't there: no package is checked"; failed=1; }
done
"${as_root[@]}" true || { echo 'no leave to change the root: no package is checked'; failed=1; }
[ "$failed" -eq 0 ] || { counted; exit 1; }

# ---- made twice, by other means each time

../../package.sh "$program" "$room/once" > "$room/told" 2>&1
is 'it is made' "$?" 0
# Another second, other rights, another folder, zone and language.
sleep 1.1
(umask 077 && mkdir "$room/elsewhere" && cd / && TMPDIR=$room/elsewhere TZ=Asia/Tokyo LC_ALL=C.UTF-8 \
    "$OLDPWD/../../package.sh" "$program" "$room/twice") > /dev/null 2>&1
is 'the same octets twice' "$(diff -r "$room/once" "$room/twice" 2>&1; echo $?)" 0
is 'checksums' "$(cd "$room/once" && sha256sum -c SHA256SUMS 2>&1; find . -type f | wc -l)" \
    "$(cd "$room/once" && printf '%s: OK\n' *.deb *.tar.gz; echo 3)"
package=("$room"/once/*.deb)
is 'owners' "$({ tar --numeric-owner -tvf "$room"/once/*.tar.gz; dpkg-deb --fsys-tarfile "${package[0]}" | tar --numeric-owner -tvf -; } \
    | awk '{ print $2 }' | sort -u)" 0/0
is 'names in order' "$(tar -tf "$room"/once/*.tar.gz | LC_ALL=C sort -c 2>&1)" ''
version=$(sed -nE 's/^## ([0-9.]+) \([0-9]{4}-[0-9]{2}-[0-9]{2}\)$/\1/p' ../../CHANGELOG.md | head -n 1)
bac --version
is 'one version' "$(dpkg-deb -f "${package[0]}" Version), $said" "$version, bac $version, ${said#*, }"
printf '#!/bin/sh\necho bac 0.0.9, of another day\n' > "$room/older"
chmod +x "$room/older"
../../package.sh "$room/older" "$room/none" > /dev/null 2>&1
is 'another version is refused' "$?" 1

# ---- installed. The root has the C library, of which dpkg is told, and a folder for files.

root=$room/root
mkdir -p "$root/var/lib/dpkg/info" "$root/var/lib/dpkg/updates" "$root/tmp"
{ ldd "$program" || true; } | grep -oE '/[^ ]+' | while read -r library; do
    install -D "$(realpath "$library")" "$root$library"
done
printf 'Package: libc6\nStatus: install ok installed\nMaintainer: none\nArchitecture: %s\nVersion: %s\nDescription: none\n\n' \
    "$(dpkg --print-architecture)" "$(getconf GNU_LIBC_VERSION | cut -d ' ' -f 2)" > "$root/var/lib/dpkg/status"
files() { (cd "$root" && find . -path ./var/lib/dpkg -prune -o -print | sort); }
files > "$room/before"
"${as_root[@]}" dpkg --root="$root" -i "${package[0]}" > "$room/told" 2>&1
is 'it is installed' "$? $(dpkg-query --admindir="$root/var/lib/dpkg" -W -f '${Status}' mantelanise)" '0 install ok installed'
is 'nothing of it is changed' "$(dpkg --root="$root" -V mantelanise 2>&1)" ''

# What common.sh runs is the program of that root, with the root's files.
printf '#!/bin/sh\nexec %s chroot %s /usr/bin/bac "$@"\n' "${as_root[*]}" "$root" > "$room/bac"
chmod +x "$room/bac"
program=$room/bac
bac --version
is 'it runs' "$said" "bac $version, ${said#*, }"
served "$root/usr/share/doc/mantelanise/examples/plant.conf"
bac wi "$at"
is 'wi' "$said" "I-Am 123 $at max-apdu 1476 segmentation 3 vendor 0||0"
bac rp "$at" 5 1 77
is 'rp' "$said" '"pump"||0'
bac log "$at" 1 oldest
is 'log' "$(tail -n 1 "$room/out" | sed 's/[0-9]*$/N/') $status" 'caught up, next N 0'
bac keep /tmp/site.db "$at" 1
is 'keep' "$(sed 's/[0-9]* records\{0,1\}/N records/; s/[0-9]*$/N/' "$room/out") $status" "$at 1 N records 0 gaps caught up, next N 0"
records=$(sed -E 's/.* ([0-9]+) records? .*/\1/' "$room/out")
bac kept /tmp/site.db "$at" 1
is 'what is kept' "$(grep -c . "$room/out") $status" "$records 0"
unserved
is 'a page of it' "$("$root/usr/share/doc/mantelanise/examples/page.py" "$root/tmp/site.db" | grep -o '<article>\|<bdi>pump-trend<' | tr '\n' ' ')" \
    '<article> <bdi>pump-trend< '

is 'man bac' "$(man -M "$root/usr/share/man" -P cat bac 2>&1 | head -n 1 | tr -s ' ')" \
    "$(man -P cat -l ../../docs/bac.1 2>&1 | head -n 1 | tr -s ' ')"
is 'completion' "$(./complete.py "$root/usr/share/bash-completion/completions/bac" 'bac rep' 2>&1)" 'bac replay '
is 'the program of the units' "$(sed -nE 's/^ExecStart=([^ ]+).*/\1/p' "$root"/usr/lib/systemd/system/* | sort -u)" /usr/bin/bac
is 'licences and changes' "$(cd "$root/usr/share/doc/mantelanise" && echo LICENSE-* copyright changelog.gz)" \
    'LICENSE-APACHE LICENSE-MIT copyright changelog.gz'

# ---- and taken out

rm "$root"/tmp/*
"${as_root[@]}" dpkg --root="$root" -P mantelanise > "$room/told" 2>&1
is 'it is taken out' "$?" 0
files > "$room/after"
is 'without a rest' "$(diff "$room/before" "$room/after")" ''

tar -C "$room" -xzf "$room"/once/*.tar.gz
is 'the program of the tarball' "$(cksum < "$room"/mantelanise-*/bin/bac)" "$(cksum < "$(realpath -- "${1:-../../crates/bac/out/bac}")")"

counted
