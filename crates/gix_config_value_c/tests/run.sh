#!/bin/sh
# The tests of the C interface: sh crates/gix_config_value_c/tests/run.sh PROGRAM [PREFIX]
#
# PROGRAM is the built crates/config_value, whose answers the fuzzer's lines are compared with. PREFIX is where build.sh
# has put the library; without it, the library is built into a folder of its own. The last line is 'N passed, M failed'.
# If a tool is missing that build.sh does not need, the tests that need it say so, and count nothing.
set -u
tests=$(CDPATH='' cd -- "$(dirname -- "$0")" && pwd)
root=$(CDPATH='' cd -- "$tests/../../.." && pwd)
program=$1
prefix=${2:-}
work=$(mktemp -d)
trap 'rm -rf -- "$work"' EXIT
# some shells run no EXIT trap after a signal
trap 'exit 130' INT
trap 'exit 143' TERM
passed=0
failed=0

# counts a command as passed if it succeeds, and otherwise as failed: holds NAME COMMAND..
holds() {
    name=$1
    shift
    if "$@" > "$work/output" 2>&1; then
        passed=$((passed + 1))
    else
        failed=$((failed + 1))
        echo "failed: $name"
        head -n 20 "$work/output"
    fi
}

# runs a program whose last line is 'N passed, M failed', and adds these numbers: counted NAME COMMAND..
counted() {
    name=$1
    shift
    "$@" > "$work/output" 2>&1
    status=$?
    last=$(tail -n 1 "$work/output")
    case $last in
        *" passed, "*" failed") ;;
        *) last="0 passed, 1 failed" ;;
    esac
    echo "$name: $last"
    if [ "$status" -ne 0 ]; then
        head -n 40 "$work/output"
    else
        grep '^skipped: ' "$work/output"
    fi
    passed=$((passed + ${last%% passed*}))
    more=${last#*, }
    more=${more%% failed}
    if [ "$status" -ne 0 ] && [ "$more" -eq 0 ]; then
        more=1
    fi
    failed=$((failed + more))
}

finish() {
    echo "$passed passed, $failed failed"
    [ "$failed" -eq 0 ]
    exit
}

if [ -z "$prefix" ]; then
    prefix=$work/prefix
    if ! sh "$tests/../build.sh" "$prefix" > "$work/build" 2>&1; then
        tail -n 40 "$work/build"
        echo "the library is not built"
        failed=1
        finish
    fi
fi
PKG_CONFIG_PATH=$prefix/lib/pkgconfig
LD_LIBRARY_PATH=$prefix/lib
export PKG_CONFIG_PATH LD_LIBRARY_PATH
archive=$prefix/lib/libgix_config_value.a

holds "the header" python3 "$tests/header.py" "$prefix"

# the library exports exactly the calls that the header declares, and needs only these symbols of the C library
sed -nE '/^typedef/d; s/^(GCV_CALL|GCV_NONNULL|gcv_depth|const char).*[ *](gcv_[a-z0-9_]+)\(.*/\2/p' \
    "$prefix/include/gix_config_value.h" | sort > "$work/declared"
nm -g --defined-only "$archive" | sed -n 's/.* [A-Z] //p' | sort > "$work/shown"
holds "the archive shows the calls of the header" diff "$work/declared" "$work/shown"
nm -D --defined-only "$prefix/lib/libgix_config_value.so" | sed -n 's/.* [A-Z] //p' | sort > "$work/shown"
holds "the shared library shows the calls of the header" diff "$work/declared" "$work/shown"
printf '%s\n' __errno_location __xpg_strerror_r access calloc close fchmod free fsync getenv geteuid getpwnam_r lseek malloc \
    memchr memcmp memcpy memmove memset open read readlink realloc realpath rename snprintf sprintf strcat strcmp strcpy \
    strlen strncmp strrchr syscall unlink write > "$work/known"
nm -u "$archive" | sed -n 's/^ *U //p' | grep -v '^gcv_\|^_GLOBAL_OFFSET_TABLE_$' | LC_ALL=C sort -u > "$work/needed"
holds "the archive needs no more than is listed" test -z "$(LC_ALL=C comm -13 "$work/known" "$work/needed")"
holds "the shared library is small" test "$(wc -c < "$prefix/lib/libgix_config_value.so")" -lt 460000
# instructions that processors of x86-64 before 2008 do not have
objdump -d --no-show-raw-insn "$archive" | cut -f 2 | cut -d ' ' -f 1 | sort -u | grep -E \
    '^(v|pabs|palign|pshufb|phadd|psign|pinsr[bdq]|pextr[bdq]|pmov[sz]x|ptest|pmulld|pcmp(eq|gt)q|pblend|popcnt|crc32|round)' \
    > "$work/newer"
holds "the archive runs on every x86-64" test ! -s "$work/newer"

# tests the effects of DESTDIR, LIBDIR, LDFLAGS and the caller's mask, and that --uninstall leaves nothing
built=${GCV_ARCHIVE:-$tests/../out/libgix_config_value_c.a}
# shellcheck disable=SC2317
installed() {
    (umask 077 && env DESTDIR="$work/dest" LIBDIR=/usr/lib/here LDFLAGS=-Wl,-z,now GCV_ARCHIVE="$built" \
        sh "$tests/../build.sh" "$@" /usr)
}
if [ ! -f "$built" ]; then
    echo "skipped: the installation, without $built"
else
    holds "it is installed below DESTDIR" installed
    holds "LIBDIR" test -f "$work/dest/usr/lib/here/libgix_config_value.a"
    holds "LDFLAGS" sh -c "readelf -d '$work/dest/usr/lib/here/libgix_config_value.so' | grep -q BIND_NOW"
    holds "all can read it" sh -c "[ -z \"\$(find '$work/dest' ! -perm -a+r)\" ]"
    holds "pkg-config knows the folders of the system" sh -c "[ \"\$(PKG_CONFIG_PATH='$work/dest/usr/lib/here/pkgconfig' \
        pkg-config --cflags --libs gix_config_value | tr -d ' ')\" = -L/usr/lib/here-lgix_config_value ]"
    holds "it is taken away" installed --uninstall
    holds "nothing is left" sh -c "[ -z \"\$(find '$work/dest' ! -type d)\" ]"
fi

# each color, with fewer colors
holds "the nearest colors" python3 "$root/compare/depth.py" "$prefix"

# tests that what pkg-config says is enough to build and run an example
if ! command -v pkg-config > /dev/null; then
    echo "skipped: the flags of pkg-config, which is not there"
else
    # shellcheck disable=SC2016
    holds "the flags of pkg-config" sh -c \
        'eval "${CC:-cc} \"\$1\" $(pkg-config --cflags --libs gix_config_value) -o \"\$2\"" && "$2" red' \
        - "$root/examples/c/theme.c" "$work/by_pkg_config"
    if pkg-config --define-prefix --version > /dev/null 2>&1; then
        cp -R "$prefix" "$work/moved"
        # shellcheck disable=SC2016
        holds "a moved prefix" sh -c '[ "$(PKG_CONFIG_PATH=$1/lib/pkgconfig pkg-config --define-prefix --cflags --libs \
            gix_config_value | tr -d " ")" = "-I$1/include-L$1/lib-lgix_config_value" ]' - "$work/moved"
    fi
fi

# the same for CMake, also after a move
if ! command -v cmake > /dev/null; then
    echo "skipped: the files for CMake, which is not there"
else
    mkdir "$work/cmake"
    printf '%s\n' 'cmake_minimum_required(VERSION 3.10)' 'project(theme C)' \
        "find_package(gix_config_value $(cut -d . -f 1,2 "$root/crates/gix_config_value_c/VERSION") REQUIRED)" \
        "add_executable(theme $root/examples/c/theme.c)" 'target_link_libraries(theme gix_config_value::gix_config_value)' \
        > "$work/cmake/CMakeLists.txt"
    [ -d "$work/moved" ] || cp -R "$prefix" "$work/moved"
    for place in "$prefix" "$work/moved"; do
        rm -rf "$work/cmake/built"
        # shellcheck disable=SC2016
        holds "the files for CMake in $place" sh -c 'cmake -S "$1" -B "$1/built" -DCMAKE_PREFIX_PATH="$2" &&
            cmake --build "$1/built" && "$1/built/theme" red' - "$work/cmake" "$place"
    done
    sed -i 's/\(find_package.* \)[0-9.]* /\199 /' "$work/cmake/CMakeLists.txt"
    holds "another version for CMake" sh -c "! cmake -S '$work/cmake' -B '$work/cmake/other' -DCMAKE_PREFIX_PATH='$prefix'"
fi

# the examples, with that of docs/C.md, by each compiler as C99 and as C++, over the shared library and over the archive
sed -n '/^```c$/,/^```$/{/^```/!p;}' "$root/docs/C.md" > "$work/edit.c"
warnings="-Wall -Wextra -Wconversion -Wsign-conversion -Wcast-qual -Wpedantic -Werror"
# a program ends with this status, and its output begins with this text: answers STATUS TEXT PROGRAM ARGUMENT..
# shellcheck disable=SC2317
answers() {
    wanted=$1
    text=$2
    shift 2
    "$@" > "$work/answer" 2>&1
    status=$?
    cat "$work/answer"
    [ "$status" -eq "$wanted" ] && grep -q "^$text" "$work/answer"
}
if command -v git > /dev/null; then
    git init -q "$work/repository"
    mkdir "$work/home"
    printf '[a]\n\tb = 1\n[some]\n\tk\n' > "$work/home/.gitconfig"
    printf '[include]\n\tpath = more\n[remote "O"]\n\turl = https://x/y\n[a]\n\tb = last # one\n' \
        >> "$work/repository/.git/config"
    printf '[a]\n\tb = 2\n[includeIf "gitdir:%s/"]\n\tpath = some\n' "$work/repository" > "$work/repository/.git/more"
    printf '[includeIf "hasconfig:remote.*.url:https://x/**"]\n\tpath = url\n' >> "$work/repository/.git/more"
    printf '[some]\n\tk = of the folder\n' > "$work/repository/.git/some"
    printf '[some]\n\tk = "of the URL"\n' > "$work/repository/.git/url"
    git config -f "$work/repository/.git/config" color.table.header "#ff0000 ul"
else
    echo "skipped: what is compared with Git, which is not there"
fi
body() {
    printf '#include <gix_config_value.h>\n#include <string.h>\nint main(void)\n{\n    char t[64] = "1";\n'
    printf '    uint32_t b = 0;\n    size_t n = 0;\n    gcv_context c;\n    gcv_color both;\n'
    printf '    memset(&c, 0, sizeof c);\n    memset(&both, 0, sizeof both);\n    return %s;\n}\n' "$1"
}
# a compiler refuses this code: refuses NAME CODE
refuses() {
    body "$2" > "$work/wrong.c"
    # shellcheck disable=SC2086
    holds "gcc tells of $1" sh -c "! gcc -std=c99 -O2 $warnings -Wno-unused -Wunused-result -I'$prefix/include' \
        -c -o '$work/wrong.o' '$work/wrong.c'"
}
if command -v gcc > /dev/null; then
    refuses "a status that nobody looks at" 'gcv_read_boolean(t, 1, &b, NULL), 0'
    refuses "a null pointer" 'gcv_read_boolean(t, 1, NULL, NULL) == GCV_OK'
    refuses "a status that is no status" 'gcv_read_boolean(t, 1, &b, NULL) == GCV_FAULT_BOOLEAN'
    refuses "a path over itself" 'gcv_interpolate(t, 1, &c, t, sizeof t, &n, NULL) == GCV_OK'
    refuses "a color over itself" 'gcv_compose(&both, &both, &both) == GCV_OK'
    refuses "an edit over its own text" 'gcv_set(t, 1, "a.b", 3, "c", 1, t, sizeof t, &n, NULL) == GCV_OK'
fi
{
    printf '#include <gix_config_value.h>\n#include <stdio.h>\nint main(void)\n{\n'
    # shellcheck disable=SC2016
    sed -n '/^```c$/,/^```$/{/^```/d;p}' "$root/README.md"
    printf 'return 0;\n}\n'
} > "$work/readme.c"
for compiler in gcc clang g++ clang++; do
    if ! command -v "$compiler" > /dev/null; then
        echo "skipped: the examples by $compiler, which is not there"
        continue
    fi
    case $compiler in
        *++) language="-x c++ -std=c++11" ;;
        *) language="-std=c99" ;;
    esac
    body 'gcv_read_boolean(t, 1, &b, NULL) == GCV_OK ? (both.attributes = b | GCV_UL, both.attributes & GCV_BOLD) > n : c.home != NULL' \
        > "$work/right.c"
    case $compiler in
        *++) also="-x c++ -std=c++98 -Wold-style-cast" ;;
        *) also="-std=c89" ;;
    esac
    # shellcheck disable=SC2086
    holds "the example of the README by $compiler" "$compiler" $language $warnings -I"$prefix/include" \
        -c -o "$work/right.o" "$work/readme.c"
    for dialect in "$language" "$also"; do
        # shellcheck disable=SC2086
        holds "no warning by $compiler $dialect" "$compiler" $dialect -O2 $warnings -I"$prefix/include" \
            -c -o "$work/right.o" "$work/right.c"
    done
    for linked in archive shared; do
        case $linked in
            archive) set -- "$archive" ;;
            *) set -- -L"$prefix/lib" -lgix_config_value ;;
        esac
        by="by $compiler, $linked"
        for example in theme check six_settings table; do
            # shellcheck disable=SC2086
            holds "$example $by" "$compiler" $language $warnings -I"$prefix/include" -o "$work/$example" \
                "$root/examples/c/$example.c" -x none "$@"
        done
        # shellcheck disable=SC2086
        holds "the page's example $by" "$compiler" $language $warnings -I"$prefix/include" -o "$work/edit" "$work/edit.c" \
            -x none "$@"
        printf '[user]\n\tname = A # me\n' > "$work/edited"
        holds "the page's example $by, edits" "$work/edit" "$work/edited"
        holds "the page's example $by, edited" grep -qx '.name = B C # me' "$work/edited"
        holds "the page's example $by, refuses" answers 1 '.*: Is a directory$' "$work/edit" "$work"
        holds "theme $by, runs" answers 0 '#ffffff bold ul$' "$work/theme" 'bold red' 'ul #fff'
        holds "theme $by, refuses" answers 1 '' "$work/theme" red 'green yellow blue'
        holds "check $by, runs" answers 0 '16k$' "$work/check" integer 0x10k
        holds "check $by, refuses" answers 1 'refused: Booleans need' "$work/check" boolean maybe
        [ -d "$work/repository" ] || continue
        holds "six_settings $by, sets" env HOME="$work/home" "$work/six_settings" "$work/repository" 'A B'
        holds "six_settings $by, has set" test "$(git config -f "$work/repository/.git/config" user.name)" = 'A B'
        holds "table $by" answers 0 "$(printf '\033')\[1;4;91mbranch" env HOME="$work/home" TERM=xterm \
            "$work/table" "$work/repository" always
    done
done

if [ -x "$work/six_settings" ] && command -v git > /dev/null; then
    counted "six settings, by Git" python3 "$tests/six.py" "$work/six_settings"
fi

if command -v git > /dev/null; then
    # shellcheck disable=SC2086
    holds "whether there are colors" "${CC:-cc}" -std=c99 $warnings -I"$prefix/include" -o "$work/colored" \
        "$tests/colored.c" "$archive"
    counted "colors, by Git" python3 "$tests/colored.py" "$work/colored"
fi

# shellcheck disable=SC2086
holds "a reader of includes" "${CC:-cc}" -std=c99 $warnings -I"$prefix/include" -o "$work/listed" "$tests/listed.c" \
    "$archive"
counted "includes in C" python3 "$root/compare/config_file.py" --reader "$work/listed"

# the Python package: a wheel by the headers of each Python from 3.9 on that is installed, tested on all of them
# shellcheck disable=SC2317
wheel() {
    mkdir "$1"
    (cd "$root/python" && "$2" -B -W error -c 'import sys, wheel_of_package as it; it.build_wheel(sys.argv[1])' "$1")
}
pythons=
versions=
for python in python3 "${PYENV_ROOT:-$HOME/.pyenv}"/versions/*/bin/python3; do
    version=$("$python" -c 'import os, sys, sysconfig
os.stat(sysconfig.get_path("include") + "/Python.h")
sys.exit("too old" if sys.version_info < (3, 9) else print(sys.version))' 2> /dev/null) || continue
    case $versions in
        *"/$version/"*) ;;
        *)
            pythons="$pythons $python"
            versions="$versions/$version/"
            ;;
    esac
done
[ -n "$pythons" ] || echo "skipped: the Python package, without Python 3.9 and its headers"
for builder in $pythons; do
    by=$("$builder" -V)
    rm -rf "$work/wheel" "$work/site"
    holds "the wheel by $by" wheel "$work/wheel" "$builder"
    # it needs no newer C library than that of 2014; so no call of fstat, which has a newer version
    holds "the wheel by $by is for every Linux of its time" sh -c "ls '$work'/wheel/*.manylinux2014_x86_64.whl"
    holds "the wheel by $by, taken apart" "$builder" -m zipfile -e "$work"/wheel/*.whl "$work/site"
    for python in $pythons; do
        holds "the package by $by on $("$python" -V)" env -C "$root/python/tests" PYTHONDONTWRITEBYTECODE=1 \
            PYTHONPATH="$work/site" "$python" -X dev -W error -bb -m unittest test_package test_files
    done
done
if [ -n "$pythons" ]; then
    # shellcheck disable=SC2086
    holds "a reader of folders" "${CC:-cc}" -std=c99 $warnings -I"$prefix/include" -o "$work/here" "$tests/here.c" "$archive"
    counted "what C and Python read in a folder" python3 "$root/compare/here.py" --places 60 --python "$work/site" \
        --c "$work/here"
    counted "files of scopes in C and Python" python3 "$root/compare/scopes.py" --python "$work/site" --c "$work/here"
    counted "includes in Python" python3 "$root/compare/config_file.py" --reader \
        "python3 -I -B $tests/listed.py $work/site"
fi
for python in $pythons; do
    "$python" -m pip --version > /dev/null 2>&1 || continue
    holds "$("$python" -V) takes the wheel" "$python" -m pip install --quiet --disable-pip-version-check --no-index \
        --target "$work/$("$python" -V)" "$work"/wheel/*.whl
done
# shellcheck disable=SC2317
sources() {
    mkdir "$1"
    (cd "$root/python" && python3 -B -W error -c 'import sys, wheel_of_package as it; it.build_sdist(sys.argv[1])' "$1")
}
# shellcheck disable=SC2317
by_pip() {
    python3 -m pip wheel --quiet --disable-pip-version-check --no-index --no-deps --wheel-dir "$work/by_pip" \
        "$work"/sources/*.tar.gz
}
if [ -n "$pythons" ]; then
    holds "the wheel, again" wheel "$work/again" "$builder"
    holds "the wheel is reproducible" diff -r "$work/wheel" "$work/again"
    holds "an archive of the sources" sources "$work/sources"
    sleep 1
    holds "an archive of the sources, again" sources "$work/sources_again"
    holds "the archive of the sources is reproducible" diff -r "$work/sources" "$work/sources_again"
    holds "the archive of the sources has the tests" sh -c "tar -tzf '$work'/sources/*.tar.gz | grep -q /tests/test_files.py"
    holds "pip builds the package of its sources" by_pip
    export PKG_CONFIG_PATH="$work/none"
    by_pip > "$work/told" 2>&1
    holds "the sources say that the library is missing" grep -q "the C library gix_config_value is missing" "$work/told"
    mkdir "$work/a space" && cp -R "$prefix/." "$work/a space/prefix"
    sed -i "s|^prefix=.*|prefix=$work/a\\\\ space/prefix|" "$work/a space/prefix/lib/pkgconfig/gix_config_value.pc"
    export PKG_CONFIG_PATH="$work/a space/prefix/lib/pkgconfig"
    holds "a prefix with a space" wheel "$work/of_space" python3
    export PKG_CONFIG_PATH="$prefix/lib/pkgconfig"
fi
if [ -z "$pythons" ] || ! python3 -m venv "$work/venv" > "$work/output" 2>&1; then
    echo "skipped: the package as pip installs it, without Python's venv"
else
    holds "pip installs the package" "$work/venv/bin/pip" install --quiet --disable-pip-version-check --no-index \
        "$work"/wheel/*.whl
    holds "the package as pip installs it" env -C "$root/python/tests" PYTHONDONTWRITEBYTECODE=1 \
        "$work/venv/bin/python" -W error -bb -m unittest test_package test_files
fi
# the types, as type checkers see them; stubtest looks at what has no stub, too
if [ -z "$pythons" ] || ! command -v mypy > /dev/null || ! command -v stubtest > /dev/null; then
    echo "skipped: the types of the package, without mypy and stubtest"
else
    printf '[mypy]\nignore_missing_imports = True\n' > "$work/mypy.ini"
    echo 'gix_config_value\._[a-z]+(\..*)?' > "$work/private"
    holds "mypy" env -C "$work" MYPYPATH="$work/site" mypy --strict --no-incremental "$root/python/tests/typed.py"
    holds "stubtest" env -C "$work" MYPYPATH="$work/site" PYTHONPATH="$work/site" stubtest --concise \
        --mypy-config-file "$work/mypy.ini" --allowlist "$work/private" gix_config_value
fi

# the calls, under sanitizers if clang has them
compiler=clang
sanitizers="-g -fsanitize=address,undefined -fno-sanitize-recover=all"
echo 'int main(void) { return 0; }' > "$work/empty.c"
# shellcheck disable=SC2086
if ! clang $sanitizers -o "$work/empty" "$work/empty.c" 2> /dev/null || ! "$work/empty"; then
    echo "skipped: the sanitizers, which no clang here has"
    compiler=${CC:-cc}
    sanitizers=
fi
for test in calls lines paths; do
    # shellcheck disable=SC2086
    holds "$test by $compiler" $compiler -std=c99 -pthread $warnings $sanitizers -I"$prefix/include" -o "$work/$test" \
        "$tests/$test.c" "$archive"
done
# shellcheck disable=SC2086
holds "memory by $compiler" $compiler -std=c99 $warnings -I"$prefix/include" \
    "-Wl$(printf ',--wrap=%s' malloc calloc realloc free open realpath readlink read write syscall fchmod fsync rename)" -o "$work/memory" "$tests/memory.c" "$archive"
counted "each status" "$work/calls"
counted "memory refused" "$work/memory"
counted "upstream's answers" "$work/lines" "$root/compare/lines.txt" "$root/compare/answers.txt"
paste "$root/crates/path_answers/stdin" "$root/crates/path_answers/stdout" > "$work/calls_and_answers"
counted "stored paths" "$work/paths" "$work/calls_and_answers"
if [ -x "$program" ]; then
    holds "the fuzzer's lines are written" python3 "$tests/mutated.py" "$program" "$work/mutated" "$work/answers"
    counted "the fuzzer's lines" "$work/lines" "$work/mutated" "$work/answers"
else
    echo "skipped: the fuzzer's lines, since there is no program $program"
fi
finish
