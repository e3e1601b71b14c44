#!/usr/bin/env bash
# Makes packages for Debian of what install.sh installs and of the page that docs/book.py writes, in out/, and prints their paths: llrp has
# the program, libllrp-c0 the library, libllrp-c-dev what a compiler needs of it, and python3-llrp-epc the package for Python. Needs
# dpkg-deb, gzip, python3 and strip beside what the program and the library need.
set -eu
unset CDPATH
top=$(cd -- "$(dirname -- "${BASH_SOURCE[0]}")" && pwd)
work=$(mktemp -d)
trap 'rm -rf "$work"' EXIT
umask 022
root=$work/llrp
maintainer='Jukyreva <packages@jukyreva.example>'

# Moves files of the program's package into another one.
move_to() {
    local package=$1 file
    shift
    for file in "$@"; do
        mkdir -p "$work/$package/$(dirname "$file")"
        mv "$root/$file" "$work/$package/$file"
    done
}

# Writes the changelog and the copyright of a package.
add_documents() {
    local documents=$work/$1/usr/share/doc/$1
    mkdir -p "$documents"
    gzip -9n >"$documents/changelog.gz" <<END
llrp ($version) unstable; urgency=low

  * ${2:-The program llrp has what changed, in NEWS.gz.}

 -- $maintainer  $(date -R -r "$top/CHANGELOG.md")
END
    echo 'llrp, by Jukyreva. Copyright 2026 Jukyreva. All rights reserved.' >"$documents/copyright"
    # The owner's words on what others may do with it, where they have chosen some.
    [ ! -e "$top/LICENSE" ] || cat "$top/LICENSE" >>"$documents/copyright"
}

# Makes a package of its files, for an architecture, with the other fields that are on standard input.
pack() {
    local package=$1 architecture=$2 file
    file=$top/out/${package}_${version}_$architecture.deb
    mkdir -p "$work/$package/DEBIAN"
    cat >"$work/$package/DEBIAN/control" <<END
Package: $package
Source: llrp
Version: $version
Architecture: $architecture
Maintainer: $maintainer
Priority: optional
Installed-Size: $(du -sk "$work/$package/usr" | cut -f1)
$(cat)
END
    (cd -- "$work/$package" && find usr -type f -exec md5sum {} + | LC_ALL=C sort -k 2 >DEBIAN/md5sums)
    chmod 755 "$work/$package"
    dpkg-deb --root-owner-group -Zxz -b "$work/$package" "$file" >&2
    echo "$file"
}

DESTDIR=$root PREFIX=/usr "$top/install.sh" >&2
version=$(sed -n 's/^Version: //p' "$root/usr/lib/pkgconfig/llrp.pc")
architecture=$(dpkg --print-architecture)
strip --strip-unneeded "$root/usr/bin/llrp" "$root/usr/lib/libllrp_c.so.0"
strip --strip-debug "$root/usr/lib/libllrp_c.a"
gzip -9n "$root"/usr/share/man/man*/*
gzip -9nc "$top/CHANGELOG.md" >"$root/usr/share/doc/llrp/NEWS.gz"
"$top/docs/book.py" "$root/usr/share/doc/llrp/believe.html" >/dev/null
move_to libllrp-c0 usr/lib/libllrp_c.so.0
move_to libllrp-c-dev usr/include/llrp.h usr/lib/libllrp_c.a usr/lib/libllrp_c.so usr/lib/pkgconfig/llrp.pc usr/share/man/man3/llrp.3.gz
move_to python3-llrp-epc usr/lib/python3/dist-packages/llrp_epc
for command in llrp-conform llrp-makers llrp-xml; do
    move_to python3-llrp-epc "usr/bin/$command" "usr/share/man/man1/$command.1.gz"
done
find "$root/usr" -depth -type d -empty -delete

add_documents llrp 'NEWS.gz has what changed.'
for package in libllrp-c0 libllrp-c-dev python3-llrp-epc; do
    add_documents "$package"
done
mkdir "$work/llrp/DEBIAN"
# The user and the folders of the services, by systemd's own tools, where these are there. (Where /var/log/llrp is a link, as services of version 0.1
# left it, docs/service.md says what to do.)
cat >"$work/llrp/DEBIAN/postinst" <<'END'
#!/bin/sh
set -e
if [ "$1" = configure ] && command -v systemd-sysusers >/dev/null && command -v systemd-tmpfiles >/dev/null; then
    systemd-sysusers ${DPKG_ROOT:+--root="$DPKG_ROOT"} llrp.conf
    systemd-tmpfiles ${DPKG_ROOT:+--root="$DPKG_ROOT"} --create llrp.conf || true
fi
if [ -z "${DPKG_ROOT:-}" ] && [ -d /run/systemd/system ]; then
    systemctl daemon-reload || true
fi
END
cat >"$work/llrp/DEBIAN/prerm" <<'END'
#!/bin/sh
set -e
if [ "$1" = remove ] && [ -z "${DPKG_ROOT:-}" ] && [ -d /run/systemd/system ]; then
    systemctl stop llrp-day.timer 'llrp-watch@*.service' 'llrp-forward@*.service' || true
fi
END
chmod 755 "$work/llrp/DEBIAN/postinst" "$work/llrp/DEBIAN/prerm"
mkdir "$work/libllrp-c0/DEBIAN"
echo "libllrp_c 0 libllrp-c0 (>= $version)" >"$work/libllrp-c0/DEBIAN/shlibs"
echo 'activate-noawait ldconfig' >"$work/libllrp-c0/DEBIAN/triggers"

pack llrp "$architecture" <<END
Section: utils
Depends: libc6 (>= 2.34)
Recommends: tshark
Suggests: libllrp-c-dev, python3-llrp-epc, systemd, postgresql-client, mosquitto-clients
Description: tags and messages of RFID readers, by a proved program
 Lists streams of the Low Level Reader Protocol 1.1 as text and turns the text
 back into the stream, converts tags of the EPC Tag Data Standard 1.13, stands
 in for a reader, and takes inventory of one. The command llrp-capture lists the
 messages of a capture of Wireshark or tcpdump, which tshark reads.
END
pack libllrp-c0 "$architecture" <<END
Section: libs
Depends: libc6 (>= 2.34)
Description: tags and messages of RFID readers, by a proved library
 Lists streams of the Low Level Reader Protocol 1.1 as text and turns the text
 back into the stream, and converts tags of the EPC Tag Data Standard 1.13, on
 buffers that the caller passes.
END
pack libllrp-c-dev "$architecture" <<END
Section: libdevel
Depends: libllrp-c0 (= $version)
Description: tags and messages of RFID readers, by a proved library - for C
 The header, the static library and what pkg-config says of libllrp_c, which
 lists and encodes streams of the Low Level Reader Protocol 1.1, and converts
 tags of the EPC Tag Data Standard 1.13.
END
pack python3-llrp-epc all <<END
Section: python
Depends: libllrp-c0 (>= $version), python3 (>= 3.8)
Suggests: python3-pytest
Description: tags and messages of RFID readers, by a proved library - for Python
 The package llrp_epc, which gives messages of the Low Level Reader Protocol
 1.1 as dicts, encodes them, and converts tags of the EPC Tag Data Standard
 1.13, by the library libllrp_c. The command llrp-conform checks a reader by
 what the protocol requires, llrp-makers names makers' parameters, and llrp-xml
 converts messages to the XML of the LLRP Toolkits and back.
END
