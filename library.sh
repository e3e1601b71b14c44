#!/usr/bin/env bash
# Proves and builds the library for C: out/libllrp_c.a, which needs the C library alone, and out/libllrp_c.so.0, for languages
# that load a library when they run, with the link out/libllrp_c.so for cc. include/llrp.h declares its functions. Needs cc, ar and
# objcopy beside the toolchain's command rt.
set -eu
unset CDPATH
top=$(cd -- "$(dirname -- "${BASH_SOURCE[0]}")" && pwd)
archive=$top/out/libllrp_c.a
# What the toolchain makes.
proved=$top/crates/llrp_c/out/libllrp_c.a
# Its name, which a program keeps that is linked with it. The number changes where such a program would no longer run.
name=libllrp_c.so.0
library=$top/out/$name

# Whether one of these files is missing, or a source is newer than the last of them. The merge gate leaves what the toolchain made, so that
# what it passed is used as it is.
is_stale() {
    local file
    for file in "$@"; do
        [ -e "$file" ] || return 0
    done
    [ -n "$(find "$top/crates" "$top/crates.txt" -name out -prune -o \
        \( -name '*.rt' -o -name '*.antt' -o -name crates.txt \) -newer "$file" -print -quit)" ]
}

is_stale "$archive" "$library" || exit 0
began=$(date +%s.%N)
mkdir -p "$top/out"
# Here both are made, and moved once they are whole.
work=$(mktemp -d "$top/out/library.XXXXXX")
trap 'rm -rf "$work"' EXIT
if is_stale "$proved"; then
    "$top/build.py" library || exit 1
    # The moment at which the build began, so that a source that was edited meanwhile is newer.
    touch -d "@$began" "$proved"
fi

# What the library allocates comes from the toolchain's few lines over malloc, which go into the archive too.
cp "$proved" "$work/proved.a"
cp "$(dirname "$(rt doc)")/c/liblibc_c.a" "$work/heap.a"
# One object has both, so that the functions of include/llrp.h are the only names that others see.
(cd "$work" && cc -r -nostdlib -o llrp_c.o -Wl,--whole-archive proved.a heap.a -Wl,--no-whole-archive)
(cd "$work" && objcopy --wildcard --keep-global-symbol='llrp_*' llrp_c.o && ar rc libllrp_c.a llrp_c.o)
(cd "$work" && cc -shared -Wl,-Bsymbolic -Wl,-soname,"$name" -o "$name" llrp_c.o)
touch -d "@$began" "$work/$name"
ln -sf "$name" "$top/out/libllrp_c.so"
mv "$work/libllrp_c.a" "$archive"
mv "$work/$name" "$library"
