#!/bin/sh
# Builds and installs the library for C: sh crates/gix_config_value_c/build.sh PREFIX
# Removes what it has installed:         sh crates/gix_config_value_c/build.sh --uninstall PREFIX
#
# It proves the crate and those that it uses, and then puts the header into PREFIX/include, a static archive and a
# shared library into LIBDIR (PREFIX/lib), files for pkg-config and CMake into LIBDIR/pkgconfig and LIBDIR/cmake, and
# docs/C.md, the examples and the licenses into PREFIX/share/doc/gix_config_value. It needs `rt`, a C compiler (CC, or
# cc) and binutils.
#
# CFLAGS and LDFLAGS are passed on to the compiler. With DESTDIR all files go below that folder, and none names it.
# A PREFIX that has moved is found by `pkg-config --define-prefix`.
# If GCV_ARCHIVE names a static library that `rt` has built already, this script takes that one and proves nothing.
set -eu
usage="[--uninstall] PREFIX"
begin=$(dirname -- "$0")/../../packaging
# shellcheck source=packaging/begin.sh
. "$begin/begin.sh"
here=$root/crates/gix_config_value_c
absolute() {
    case $1 in
        /*) printf '%s\n' "$1" ;;
        *) printf '%s\n' "$PWD/$1" ;;
    esac
}
prefix=$(absolute "$word")
libdir=$(absolute "${LIBDIR:-$prefix/lib}")
include=${DESTDIR:-}$prefix/include
lib=${DESTDIR:-}$libdir
doc=${DESTDIR:-}$prefix/share/doc/gix_config_value
cmake=$lib/cmake/gix_config_value
# below 1.0 each minor version may break a program, so each has a shared library of its own
version=$(cat "$here/VERSION")
case $version in
    0.*) soname=libgix_config_value.so.${version%.*} ;;
    *) soname=libgix_config_value.so.${version%%.*} ;;
esac

if [ -n "$option" ]; then
    rm -f -- "$include/gix_config_value.h" "$lib/libgix_config_value.a" "$lib/libgix_config_value.so" "$lib/$soname" \
        "$lib/libgix_config_value.so.$version" "$lib/pkgconfig/gix_config_value.pc" "$cmake"/gix_config_value*.cmake \
        "$doc/LICENSE-APACHE" "$doc/LICENSE-MIT" "$doc/C.md" "$doc"/examples/*.c
    # the folders, unless something else is in them
    for folder in "$doc/examples" "$doc" "${doc%/*}" "${doc%/*/*}" "$lib/pkgconfig" "$cmake" "${cmake%/*}" "$lib" "$include"; do
        rmdir -- "$folder" 2> /dev/null || true
    done
    echo "gix_config_value $version is no longer in $prefix"
    exit
fi

if ! rt=$(command -v rt); then
    echo "rt, the command of the toolchain, is not in PATH" >&2
    exit 2
fi
# the toolchain's heap, with which the library calls malloc, realloc and free
heap=$(dirname -- "$(dirname -- "$(readlink -f -- "$rt")")")/c/liblibc_c.a
if [ ! -f "$heap" ]; then
    echo "the toolchain has no $heap" >&2
    exit 2
fi

# for every processor of x86-64, which is not the default of the toolchain
archive=${GCV_ARCHIVE:-}
if [ -z "$archive" ]; then
    (cd "$here" && rt lib --cpu=x86-64)
    archive=$here/out/libgix_config_value_c.a
fi

# one object, which exports only what the header declares, and three that only some programs need: of the calls that look
# up users, that edit files, and that look for a repository; CC and the flags may be several words
cc=${CC:-cc}
for part in calls settings users locked here; do
    # shellcheck disable=SC2086
    $cc -std=c99 -O2 -fPIC ${CFLAGS:-} -I"$here/include" -c -o "$work/$part.o" "$here/$part.c"
done
# shellcheck disable=SC2086
$cc -r -nostdlib -o "$work/gix_config_value.o" \
    -Wl,--whole-archive "$archive" "$heap" -Wl,--no-whole-archive "$work/calls.o" "$work/settings.o"
objcopy --wildcard --keep-global-symbol='gcv_*' --localize-symbol='gcv_raw_*' "$work/gix_config_value.o"
ar rcsD "$work/libgix_config_value.a" "$work/gix_config_value.o" "$work/users.o" "$work/locked.o" \
    "$work/here.o"
# shellcheck disable=SC2086
$cc -shared -o "$work/libgix_config_value.so.$version" -Wl,-soname,"$soname" -Wl,-z,defs -Wl,-z,noexecstack \
    -Wl,-z,relro ${CFLAGS:-} "$work/gix_config_value.o" "$work/users.o" "$work/locked.o" "$work/here.o" ${LDFLAGS:-}
# a text in a substitution of sed, also as pkg-config reads it
literal() {
    printf '%s' "$1" | sed 's/[\\&|]/\\&/g'
}
escaped() {
    literal "$(printf '%s' "$1" | sed 's/[ \\]/\\&/g')"
}
# a folder below PREFIX is named by it, since PREFIX may move
# shellcheck disable=SC2016
case $libdir in
    "$prefix"/*) named='${prefix}'$(escaped "${libdir#"$prefix"}") ;;
    *) named=$(escaped "$libdir") ;;
esac
sed -e "s|@PREFIX@|$(escaped "$prefix")|" -e "s|@LIBDIR@|$named|" -e "s|@VERSION@|$version|" \
    "$here/gix_config_value.pc.in" > "$work/gix_config_value.pc"
case $libdir in
    "$prefix"/*) to_include=$(realpath -m --relative-to="$libdir/cmake/gix_config_value" "$prefix/include") ;;
    *) to_include=$prefix/include ;;
esac
for file in gix_config_valueConfig gix_config_valueConfigVersion; do
    sed -e "s|@INCLUDE@|$(literal "$to_include")|" -e "s|@VERSION@|$version|" "$here/cmake/$file.cmake.in" \
        > "$work/$file.cmake"
done
# without links to files that are not installed
sed -e 's|(\.\./examples/c/|(examples/|g' -e 's/\[\([^]]*\)\]([^)]*\.\(md\|h\)\(#[^)]*\)*)/\1/g' "$root/docs/C.md" > "$work/C.md"

# installs folders and files that all users can read, whatever the mask is
umask 022
mkdir -p -- "$include" "$lib/pkgconfig" "$cmake" "$doc/examples"
install -m 644 "$here/include/gix_config_value.h" "$include/"
install -m 644 "$work/libgix_config_value.a" "$lib/"
install -m 755 "$work/libgix_config_value.so.$version" "$lib/"
ln -sf "libgix_config_value.so.$version" "$lib/$soname"
ln -sf "$soname" "$lib/libgix_config_value.so"
install -m 644 "$work/gix_config_value.pc" "$lib/pkgconfig/"
install -m 644 "$work"/gix_config_value*.cmake "$cmake/"
install -m 644 "$root/LICENSE-APACHE" "$root/LICENSE-MIT" "$work/C.md" "$doc/"
install -m 644 "$root"/examples/c/*.c "$doc/examples/"
echo "gix_config_value $version is in ${DESTDIR:-}$prefix"
