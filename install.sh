#!/usr/bin/env bash
# Builds llrp and the library for C if need be, and installs below PREFIX (/usr/local) the program, llrp-capture, their manual pages, completions,
# the units for systemd and what they run, the examples, and the pages that the help names; the library, its header, its manual page and what
# pkg-config says of it; and the package for Python with its commands, in the folder where Debian's python3 finds it below /usr. With --uninstall it
# removes these files.
#
#     ./install.sh
#     PREFIX=~/.local ./install.sh
#     DESTDIR=package PREFIX=/usr ./install.sh
#     ./install.sh --uninstall
set -eu
unset CDPATH
umask 022
top=$(cd -- "$(dirname -- "${BASH_SOURCE[0]}")" && pwd)
prefix=${PREFIX:-/usr/local}
to=${DESTDIR:-}$prefix

# Where the package for Python is, below PREFIX.
package=lib/python3/dist-packages/llrp_epc
# Each file: its mode, its name here, and its name below PREFIX.
files=(
    "755 crates/llrp/out/llrp bin/llrp"
    "755 llrp-capture bin/llrp-capture"
    "644 out/libllrp_c.a lib/libllrp_c.a"
    "644 out/libllrp_c.so.0 lib/libllrp_c.so.0"
    "644 include/llrp.h include/llrp.h"
    "644 docs/llrp.1 share/man/man1/llrp.1"
    "644 docs/llrp-capture.1 share/man/man1/llrp-capture.1"
    "644 docs/llrp.3 share/man/man3/llrp.3"
    "644 completions/llrp.bash share/bash-completion/completions/llrp"
    "644 completions/_llrp share/zsh/site-functions/_llrp"
    "644 completions/llrp.fish share/fish/vendor_completions.d/llrp.fish"
)
for module in __init__.py _bench.py _checks_access.py _checks_connections.py _checks_readers.py _checks_rospecs.py _definitions.py _library.py \
    _llrp.py _messages.py _standard.py _texts.py _typed.py client.py conform.py conform_pytest.py enumerations.tsv impinj.tsv ltkxml.py \
    makers.py py.typed standard.tsv test_conform.py; do
    files+=("644 python/llrp_epc/$module $package/$module")
done
for command in llrp-conform llrp-makers llrp-xml; do
    files+=("755 python/bin/$command bin/$command" "644 docs/$command.1 share/man/man1/$command.1")
done
for page in capture client conform errors json library makers recipes service sim tables xml; do
    files+=("644 docs/$page.md share/doc/llrp/$page.md")
done
for example in add_rospec.xml answers explain.py fault.hex inventory.pcap inventory.script keepalive.hex makers.script report.hex report.txt \
    requests.txt rospec.txt seen.awk shift.txt sightings.script tid.access two_antennas.rospec c/seen.c c/tags.c python/async_client.py \
    python/client.py python/test_client.py sinks/kafka sinks/queries.sql sinks/schema.sql sinks/web; do
    files+=("644 examples/$example share/doc/llrp/examples/$example")
done
# The services: what runs them, and the commands that pass tags on.
files+=(
    "644 examples/systemd/llrp-day.service lib/systemd/system/llrp-day.service"
    "644 examples/systemd/llrp-day.timer lib/systemd/system/llrp-day.timer"
    "644 examples/systemd/sysusers.conf lib/sysusers.d/llrp.conf"
    "755 examples/systemd/llrp-forward lib/llrp/llrp-forward"
    "755 examples/sinks/broker lib/llrp/forward/broker"
    "755 examples/sinks/database lib/llrp/forward/database"
)
# Files that are written with PREFIX in the place of /usr/local: their names here and below PREFIX.
written=(
    "examples/systemd/llrp-watch@.service lib/systemd/system/llrp-watch@.service"
    "examples/systemd/llrp-forward@.service lib/systemd/system/llrp-forward@.service"
    "examples/systemd/tmpfiles.conf lib/tmpfiles.d/llrp.conf"
)
# The link by which cc finds the library, and what pkg-config says of the library.
link=lib/libllrp_c.so
configuration=lib/pkgconfig/llrp.pc

# Removes what is installed.
uninstall() {
    local line name
    for line in "${files[@]}"; do
        read -r _ _ name <<<"$line"
        rm -f "$to/$name"
    done
    for line in "${written[@]}"; do
        rm -f "$to/${line#* }"
    done
    rm -f "$to/$link" "$to/$configuration"
    # What Python compiled goes too.
    rm -rf "$to/$package/__pycache__"
    [ ! -d "$to/$package" ] || rmdir --ignore-fail-on-non-empty "$to/$package"
    for name in share/doc/llrp lib/llrp; do
        [ ! -d "$to/$name" ] || find "$to/$name" -depth -type d -empty -delete
    done
    echo "llrp: removed below $to"
}

# Installs the files.
install_all() {
    local line mode from name
    for line in "${files[@]}"; do
        read -r mode from name <<<"$line"
        install -D -m "$mode" "$top/$from" "$to/$name"
    done
    # (a link to a folder is replaced, and a folder is an error)
    ln -sfT libllrp_c.so.0 "$to/$link"
    for line in "${written[@]}"; do
        read -r from name <<<"$line"
        sed "s|/usr/local|$prefix|g" "$top/$from" | install -D -m 644 /dev/stdin "$to/$name"
    done
    install -D -m 644 /dev/stdin "$to/$configuration" <<END
prefix=$prefix
libdir=\${prefix}/lib
includedir=\${prefix}/include

Name: llrp
Description: EPC tags, and listings of streams of LLRP
Version: $1
Libs: -L\${libdir} -lllrp_c
Cflags: -I\${includedir}
END
    echo "llrp: installed below $to"
}

case ${1:-} in
    '' | --uninstall) ;;
    *)
        echo "llrp: install.sh takes no word but --uninstall" >&2
        exit 2
        ;;
esac
case $prefix in
    /*) ;;
    *)
        echo "llrp: PREFIX has to begin with /: $prefix" >&2
        exit 2
        ;;
esac
# (units, shells and pkg-config read other characters as words of their own)
case $prefix in
    *[!A-Za-z0-9/._+,:@=~-]*)
        echo "llrp: PREFIX may have letters, digits and / . _ + , : @ = ~ - alone: $prefix" >&2
        exit 2
        ;;
esac
if [ "${1:-}" = --uninstall ]; then
    uninstall
    exit
fi
version=$("$top/llrp" --version)
"$top/library.sh"
install_all "${version#llrp }"
