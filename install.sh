#!/bin/sh
# Installs the programs, their man pages and completions, the C library and the Python package: sh install.sh PREFIX
# Installs the programs as `rt try` builds them in minutes:           sh install.sh --unproved PREFIX
# Removes what it has installed, and nothing else:                    sh install.sh --uninstall PREFIX
#
# The programs are config_value, git-settings, which `git settings` runs, and config_check, which is git-config-check
# too, for `git config-check`. They are taken from `out/` of their crates, where `rt run` and `rt ci` put what is
# proved, or from the folder PROGRAMS. The library is made of what `rt lib` has proved, or of the archive GCV_ARCHIVE:
# crates/gix_config_value_c/build.sh says what it needs. Man pages need help2man, and Python its headers.
# A part that lacks something is left out, and the last lines say so.
#
# What is installed unproved says so in its `--version`. It checks each operation as it runs, and is some twenty times
# slower.
#
# DESTDIR and LIBDIR mean what they mean for build.sh. PYTHONDIR is the folder of the Python package: the folder of
# python3 below PREFIX, or PREFIX/lib/python3/dist-packages. A file that is there and that no earlier run has installed
# is never replaced. The list of what is installed is PREFIX/share/doc/gix_config_value/installed.
set -eu
umask 022
usage="[--unproved] [--uninstall] PREFIX"
begin=$(dirname -- "$0")/packaging
# shellcheck source=packaging/begin.sh
. "$begin/begin.sh"
library=$root/crates/gix_config_value_c
dest=${DESTDIR:-}
case $word in
    /*) prefix=$word ;;
    *) prefix=$PWD/$word ;;
esac
list=$prefix/share/doc/gix_config_value/installed

# removes the files of the list, what Python has compiled of them, and then its folders unless something else is there
uninstall() {
    while IFS= read -r path; do
        case $path in
            */gix_config_value/__init__.py) rm -rf -- "$dest$path" "$dest${path%/*}/__pycache__" ;;
            */) rmdir -- "$dest$path" 2> /dev/null || true ;;
            *) rm -f -- "$dest$path" ;;
        esac
    done < "$dest$list"
}
if [ "$option" = --uninstall ]; then
    if [ ! -f "$dest$list" ]; then
        echo "nothing is installed in $dest$prefix: there is no $dest$list" >&2
        exit 1
    fi
    uninstall
    echo "gix_config_value is no longer in $dest$prefix"
    exit
fi

stage=$work/stage
share=$stage$prefix/share
: > "$work/skipped"
skipped() {
    echo "skipped: $1" >> "$work/skipped"
}
# whether all these commands are there: has COMMAND..
has() {
    for command in "$@"; do
        command -v "$command" > /dev/null || return 1
    done
}
# man pages of what a program says of itself, and of what its words say: pages PROGRAM [WORD..]
pages() {
    program=$1
    shift
    for word in "" "$@"; do
        page=$program${word:+-$word}
        # help2man splits the command at spaces, names the page after the program alone, and fills examples
        command="./$program${word:+ $word}"
        (cd "$stage$prefix/bin" && LC_ALL=C help2man --no-info --name="$($command --help | head -n 1)" "$command") \
            > "$work/page"
        heading=$(printf '%s' "$page" | tr '[:lower:]' '[:upper:]')
        sed -e "s/^\\.TH [^ ]*/.TH $heading/" -e "/^\\.SH NAME/{n;s/^$program /$page /}" \
            -e '/^\.SH EXAMPLES/,/^\.SH [^E]/s/^\.IP/.nf\n.IP/' "$work/page" > "$share/man/man1/$page.1"
    done
}
# builds a program for which nothing is proved
try() {
    (cd "$root/crates/$1" && python3 "$root/.ci/try.py" --keep "$work/programs/$1" --steps 1 -- --version) \
        < /dev/null > "$work/said.$1" 2>&1 || [ -x "$work/programs/$1" ] || cat "$work/said.$1" >&2
}
# installs a program, or a script that runs one which is not proved: put PROGRAM NAME
put() {
    if [ -z "$option" ]; then
        install -m 755 "$1" "$stage$prefix/bin/$2"
        return
    fi
    behind=lib/gix_config_value/unproved/$2
    install -D -m 755 "$1" "$stage$prefix/$behind"
    cat > "$stage$prefix/bin/$2" << END
#!/bin/sh
program=\$(dirname -- "\$0")/../$behind
[ "\$*" != --version ] || exec printf '%s, unproved\n' "\$("\$program" --version)"
exec "\$program" "\$@"
END
    chmod 755 "$stage$prefix/bin/$2"
}
# a program with its man pages and completions: program CRATE NAME [WORD..]
program() {
    crate=$1
    shift
    built=${PROGRAMS:-$root/crates/$crate/out}/$crate
    if [ ! -x "$built" ]; then
        skipped "$1, since there is no $built: \`(cd crates/$crate && rt run < /dev/null)\` proves and builds it"
        return
    fi
    mkdir -p -- "$stage$prefix/bin" "$share/man/man1" "$share/bash-completion/completions" "$share/zsh/site-functions" \
        "$share/fish/vendor_completions.d"
    put "$built" "$1"
    # config_value has no options to complete
    if [ "$1" != config_value ]; then
        install -m 644 "$root/packaging/completions/bash" "$share/bash-completion/completions/$1"
        install -m 644 "$root/packaging/completions/zsh" "$share/zsh/site-functions/_$1"
        install -m 644 "$root/packaging/completions/fish" "$share/fish/vendor_completions.d/$1.fish"
    fi
    if has help2man; then
        pages "$@"
    else
        skipped "the man pages of $1, without help2man"
    fi
    if [ "$1" = config_check ]; then
        ln -s config_check "$stage$prefix/bin/git-config-check"
        ln -s config_check "$share/bash-completion/completions/git-config-check"
        ln -s _config_check "$share/zsh/site-functions/_git-config-check"
        ln -s config_check.fish "$share/fish/vendor_completions.d/git-config-check.fish"
        ! has help2man || ln -s config_check.1 "$share/man/man1/git-config-check.1"
    fi
}
# the C library, and the Python package over it
libraries() {
    GCV_ARCHIVE=${GCV_ARCHIVE:-$library/out/libgix_config_value_c.a}
    export GCV_ARCHIVE
    # the first word of CC, which may have options
    compiler=${CC:-cc}
    compiler=${compiler%% *}
    if [ ! -f "$GCV_ARCHIVE" ]; then
        skipped "the C library and the Python package, since there is no $GCV_ARCHIVE, which \`rt lib --cpu=x86-64\` \
proves and builds in crates/gix_config_value_c"
        return
    elif ! has rt "$compiler" objcopy; then
        skipped "the C library and the Python package, without rt, a C compiler and binutils"
        return
    fi
    DESTDIR=$stage sh "$library/build.sh" "$prefix" > "$work/said"
    headers='import os, sys, sysconfig; os.stat(sysconfig.get_path("include") + "/Python.h")'
    if ! has python3 pkg-config || ! python3 -c "$headers" 2> /dev/null; then
        skipped "the Python package, without pkg-config, python3 and its headers"
        return
    fi
    # PREFIX is not there yet: so the package is made over a library of its own
    env -u DESTDIR -u LIBDIR sh "$library/build.sh" "$work/library" > "$work/said"
    mkdir "$work/wheel"
    (cd "$root/python" && PKG_CONFIG_PATH=$work/library/lib/pkgconfig \
        python3 -B -c 'import sys, wheel_of_package as it; it.build_wheel(sys.argv[1])' "$work/wheel" > "$work/said")
    folders='import site, sys
print(next((it for it in site.getsitepackages() if it.startswith(sys.argv[1] + "/")), sys.argv[2]))'
    site=${PYTHONDIR:-$(python3 -c "$folders" "$prefix" "$prefix/lib/python3/dist-packages")}
    mkdir -p -- "$stage$site"
    python3 -m zipfile -e "$work"/wheel/*.whl "$stage$site"
}
if [ -n "$option" ] && [ -z "${PROGRAMS:-}" ]; then
    mkdir "$work/programs"
    for crate in config_value git_settings config_check; do
        try "$crate" &
    done
    wait
    PROGRAMS=$work/programs
fi
program config_value config_value
program git_settings git-settings get list set unset rename-section remove-section
program config_check config_check
if [ -n "$option" ]; then
    skipped "the C library and the Python package, which only a proof makes"
else
    libraries
fi

mkdir -p -- "$stage"
(cd "$stage" && find . ! -type d | sed 's/^\.//' | LC_ALL=C sort) > "$work/files"
if [ ! -s "$work/files" ]; then
    cat "$work/skipped" >&2
    exit 1
fi
# nothing is replaced that is not in the list of an earlier run
while IFS= read -r path; do
    if [ -e "$dest$path" ] || [ -L "$dest$path" ]; then
        grep -qxF -e "$path" "$dest$list" 2> /dev/null || printf '%s\n' "$dest$path"
    fi
done < "$work/files" > "$work/others"
if [ -s "$work/others" ]; then
    echo "nothing is installed, since these files are there, and no earlier run of $0 installed them:" >&2
    cat "$work/others" >&2
    exit 1
fi
[ ! -f "$dest$list" ] || uninstall
mkdir -p -- "$stage$(dirname -- "$list")"
cp -- "$work/files" "$stage$list"
printf '%s\n' "$list" >> "$stage$list"
(cd "$stage" && find . -mindepth 1 -type d | sed 's/^\.//' | LC_ALL=C sort -r) | while IFS= read -r folder; do
    [ -d "$dest$folder" ] || printf '%s/\n' "$folder"
done >> "$stage$list"
# the list is written first and removed last, so that what an interrupted run has installed can be taken away
mkdir -p -- "$(dirname -- "$dest$list")"
cp -- "$stage$list" "$dest$list"
while IFS= read -r path; do
    case $path in
        */) ;;
        *)
            mkdir -p -- "$(dirname -- "$dest$path")"
            cp -P -- "$stage$path" "$dest$path"
            ;;
    esac
done < "$stage$list"
echo "gix_config_value $(cat "$library/VERSION") is in $dest$prefix"
cat "$work/skipped"
