#!/bin/sh
# Makes packages for Debian of what install.sh installs: sh packaging/debian.sh FOLDER
#
# FOLDER gets gix-config-value-tools, libgix-config-value0.2, libgix-config-value-dev and python3-gix-config-value:
# those for which install.sh has all that it needs. It says what it leaves out. The shared library's package has the
# number of its soname, so that versions can be installed side by side. PROGRAMS and GCV_ARCHIVE are for install.sh.
# DEBFULLNAME and DEBEMAIL, or otherwise Git's user.name and user.email, are the maintainer. It needs dpkg-dev and
# binutils. The same inputs and SOURCE_DATE_EPOCH, which is otherwise the time of the last commit, give the same bytes.
set -eu
umask 022
usage=FOLDER
begin=$(dirname -- "$0")
# shellcheck source=packaging/begin.sh
. "$begin/begin.sh"
mkdir -p -- "$word"
folder=$(CDPATH='' cd -- "$word" && pwd)
version=$(cat "$root/crates/gix_config_value_c/VERSION")
maintainer="${DEBFULLNAME:-$(git config user.name || id -un)} <${DEBEMAIL:-$(git config user.email || true)}>"
case $maintainer in
    *"<>") echo "the packages need a maintainer: set DEBEMAIL" >&2 && exit 2 ;;
esac
if [ -z "${SOURCE_DATE_EPOCH:-}" ] && ! SOURCE_DATE_EPOCH=$(git -C "$root" log -1 --format=%ct); then
    echo "the packages need a time: set SOURCE_DATE_EPOCH" >&2
    exit 2
fi
export SOURCE_DATE_EPOCH
machine=$(dpkg --print-architecture)
libdir=/usr/lib/$(dpkg-architecture -qDEB_HOST_MULTIARCH)
python=/usr/lib/python3/dist-packages

# the flags of Debian's packages: a library is bound as it is loaded
flags() {
    DEB_BUILD_MAINT_OPTIONS=hardening=+bindnow dpkg-buildflags --get "$1"
}
CFLAGS="$(flags CPPFLAGS) $(flags CFLAGS) ${CFLAGS:-}"
LDFLAGS="$(flags LDFLAGS) ${LDFLAGS:-}"
export CFLAGS LDFLAGS
env DESTDIR="$work/all" LIBDIR="$libdir" PYTHONDIR="$python" sh "$root/install.sh" /usr > "$work/said"
grep -e '^skipped' "$work/said" || true
cd "$work"
mkdir debian
printf 'Source: gix-config-value\n\nPackage: any\nArchitecture: any\n' > debian/control
# the versions of the changelog, the newest first, and the year of the oldest
sed -n 's/^## \[\([0-9.]*\)\] - \([0-9-]*\)$/\1 \2/p' "$root/CHANGELOG.md" > released
while read -r number day; do
    printf 'gix-config-value (%s-1) unstable; urgency=medium\n\n  * changelog.gz has what changed.\n\n -- %s  %s\n\n' \
        "$number" "$maintainer" "$(LC_ALL=C date -u -R -d "$day")"
done < released > versions
first_year=$(tail -n 1 released | sed 's/.* \(....\).*/\1/')
# build.sh names the shared library by its version and by a shorter number, of which the package has its name
library=libgix_config_value.so.$version
soname=$(find all -path "all$libdir/*" -lname "$library" | sed 's,.*/,,')
shared=libgix-config-value${soname#libgix_config_value.so.}

# begins a package of those of these files that are there: of PACKAGE PATH.., and fails if there is none
of() {
    package=$1
    shift
    found=
    for path in "$@"; do
        [ -e "all$path" ] || continue
        found=yes
        mkdir -p -- "$package$(dirname -- "$path")"
        cp -RP -- "all$path" "$package$path"
    done
    [ -n "$found" ]
}
# completes a package: package PACKAGE SECTION DEPENDS SUMMARY, and the lines of the description on standard input
package() {
    doc=$1/usr/share/doc/$1
    mkdir -p -- "$1/DEBIAN" "$doc"
    {
        printf 'Format: https://www.debian.org/doc/packaging-manuals/copyright-format/1.0/\n'
        printf 'Upstream-Name: gix_config_value\n\nFiles: *\nCopyright: %s ' "$first_year"
        sed -n 's/^Copyright (c) //p' "$root/LICENSE-MIT" | tac | sed '2,$s/^/ /'
        printf 'License: Expat or Apache-2.0\n\nLicense: Expat\n'
        sed -e '1,/^Copyright.*repository/d' "$root/LICENSE-MIT" | sed -e 1d -e 's/^$/./' -e 's/^/ /'
        printf '\nLicense: Apache-2.0\n On Debian systems the text is in /usr/share/common-licenses/Apache-2.0.\n'
    } > "$doc/copyright"
    gzip -9n < versions > "$doc/changelog.Debian.gz"
    gzip -9n < "$root/CHANGELOG.md" > "$doc/changelog.gz"
    depends=$3
    # the programs and shared libraries, without what debuggers and linkers read
    find "$1" -type f \( -path '*/bin/*' -o -name '*.so' -o -name '*.so.*' \) > binaries
    find "$1" -name '*.a' -exec strip --strip-debug --remove-section=.comment {} +
    if [ -s binaries ]; then
        xargs strip --strip-unneeded --remove-section=.comment < binaries
        # shellcheck disable=SC2046
        needed=$(dpkg-shlibdeps -O $(sed 's/^/-e/' binaries) 2> shlibdeps) || { cat shlibdeps >&2 && exit 1; }
        needed=${needed#shlibs:Depends=}
        depends=$needed${needed:+${depends:+, }}$depends
    fi
    {
        printf 'Package: %s\nSource: gix-config-value\nVersion: %s-1\nArchitecture: %s\n' "$1" "$version" "$machine"
        printf 'Maintainer: %s\nInstalled-Size: %s\n' "$maintainer" "$(du -sk --apparent-size "$1" | cut -f 1)"
        [ -z "$depends" ] || printf 'Depends: %s\n' "$depends"
        printf 'Section: %s\nPriority: optional\nDescription: %s\n' "$2" "$4"
        sed 's/^/ /'
    } > control
    mv control "$1/DEBIAN/control"
    (cd "$1" && find usr -type f | LC_ALL=C sort | xargs md5sum > DEBIAN/md5sums)
    dpkg-deb --root-owner-group -Zxz --build "$1" "$folder" > "$work/said"
    echo "$folder/$1_$version-1_$machine.deb"
}

[ ! -d all/usr/share/zsh/site-functions ] || mv all/usr/share/zsh/site-functions all/usr/share/zsh/vendor-completions
if [ -d all/usr/share/man ]; then
    find all/usr/share/man -type f -exec gzip -9n {} +
    # shellcheck disable=SC2016
    find all/usr/share/man -type l -exec sh -c 'ln -s "$(readlink "$1").gz" "$1.gz" && rm -- "$1"' - {} \;
fi

if of gix-config-value-tools /usr/bin /usr/share/man /usr/share/bash-completion /usr/share/zsh \
    /usr/share/fish; then
    package gix-config-value-tools vcs "" "programs that read and check configuration files of Git" << 'END'
git-settings prints, lists and changes settings, as git config does.
config_check, which is also git-config-check, reports values that Git
refuses or ignores, misspelled keys and invalid lines. config_value
answers lines of texts with the values that they have.
END
fi
if [ -n "$soname" ]; then
    of "$shared" "$libdir/$soname" "$libdir/$library"
    chmod 644 "$shared$libdir/$library"
    mkdir "$shared/DEBIAN"
    echo "libgix_config_value ${soname#libgix_config_value.so.} $shared (>= $version)" > "$shared/DEBIAN/shlibs"
    echo "activate-noawait ldconfig" > "$shared/DEBIAN/triggers"
    {
        echo "$soname $shared #MINVER#"
        nm -D --defined-only "$shared$libdir/$library" | sed -n "s/.* \(gcv_.*\)$/ \1@Base $version/p"
    } > "$shared/DEBIAN/symbols"
    package "$shared" libs "" "readers of configuration values of Git, a shared library" << 'END'
Booleans, integers with suffixes, colors, paths and whole files are read as
Git reads them, by code that is proved to keep its contracts.
END
    of libgix-config-value-dev "$libdir/libgix_config_value.so" "$libdir/libgix_config_value.a" "$libdir/pkgconfig" \
        "$libdir/cmake" /usr/include
    mkdir -p libgix-config-value-dev/usr/share/doc/libgix-config-value-dev
    cp -R all/usr/share/doc/gix_config_value/C.md all/usr/share/doc/gix_config_value/examples \
        libgix-config-value-dev/usr/share/doc/libgix-config-value-dev
    package libgix-config-value-dev libdevel "$shared (= $version-1)" \
        "readers of configuration values of Git, for C" << 'END'
The header, the static library, the files for pkg-config and CMake, and a
page with examples. Booleans, integers with suffixes, colors, paths and whole
files are read as Git reads them, by code that is proved to keep its contracts.
END
fi
if of python3-gix-config-value "$python"; then
    mkdir python3-gix-config-value/DEBIAN
    # as dh_python3 writes them: Python compiles the modules, and what it has compiled is taken away with them
    for script in postinst:py3compile prerm:py3clean; do
        printf '#!/bin/sh\nset -e\nif command -v %s > /dev/null; then\n    %s -p python3-gix-config-value\nfi\n' \
            "${script#*:}" "${script#*:}" > "python3-gix-config-value/DEBIAN/${script%:*}"
        chmod 755 "python3-gix-config-value/DEBIAN/${script%:*}"
    done
    package python3-gix-config-value python "python3 (>= 3.9)" \
        "readers of configuration values of Git, for Python" << 'END'
Booleans, integers with suffixes, colors, paths and whole files are read as
Git reads them. The module is written in C over the library of
libgix-config-value-dev, which it contains.
END
fi
