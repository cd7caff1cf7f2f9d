#!/bin/sh
# Copies the library into another repository: sh vendor.sh [--diff] DEST
#
# DEST is the top of that repository, or an empty folder. It gets the folders of the library's twelve crates in
# DEST/crates, and their lines in DEST/crates.txt, each line once. A crate of DEST then uses the library by a line such
# as `NAME: gix_config_value config_file`, with config_host if it opens files. The two licenses, CALLING.md, CHANGELOG.md
# and the pages of docs/ that all of it cites are in DEST/crates/gix_config_value. `vendored` there has the version and
# the sum of each file that is copied: `sha256sum --check crates/gix_config_value/vendored` tells in DEST which ones have
# changed.
#
# A second run replaces the library by a newer version, and removes the files that this no longer has. If a file or a
# line of DEST that it would replace or remove is not as an earlier run has written it, nothing is changed, and the
# status is 1. With --diff nothing is changed: it prints what would be, and the status is 1 if that is anything.
set -eu
usage="[--diff] DEST"
begin=$(dirname -- "$0")/packaging
# shellcheck source=packaging/begin.sh
. "$begin/begin.sh"
[ -n "$option" ] || mkdir -p -- "$word"
dest=$(CDPATH='' cd -- "$word" && pwd)
[ "$dest" != "$root" ] || { echo "$dest is this repository" >&2; exit 2; }
library="config_text config_integer config_boolean config_word config_color config_path gix_config_value config_file \
config_edit config_url config_search config_host"
own=crates/gix_config_value
list=$own/vendored

# the new files, below $work/new
for crate in $library; do
    mkdir -p -- "$work/new/crates/$crate"
    for part in src specs proofs; do
        [ ! -d "$root/crates/$crate/$part" ] || cp -R -- "$root/crates/$crate/$part" "$work/new/crates/$crate/"
    done
    grep "^$crate:" "$root/crates.txt" >> "$work/lines"
done
for it in LICENSE-MIT LICENSE-APACHE CALLING.md CHANGELOG.md; do
    cp -- "$root/$it" "$work/new/$own/"
done
mkdir "$work/new/$own/docs"
grep -rhoE 'docs/[A-Z]+\.md' "$work/new/crates" | sort -u | while IFS= read -r page; do
    cp -- "$root/$page" "$work/new/$own/docs/"
done
(cd "$work/new" && find crates -type f | LC_ALL=C sort) > "$work/files"
{
    echo "# gix_config_value $(cat "$root/crates/gix_config_value_c/VERSION")" \
        "$([ ! -e "$root/.git" ] || git -C "$root" rev-parse --short=12 HEAD 2> /dev/null || true)"
    sed 's/^/# crates.txt: /' "$work/lines"
    (cd "$work/new" && xargs sha256sum < "$work/files")
} > "$work/list"

# what the earlier run wrote
touch "$work/were" "$work/earlier"
[ ! -f "$dest/crates.txt" ] || cp -- "$dest/crates.txt" "$work/were"
[ ! -f "$dest/$list" ] || cp -- "$dest/$list" "$work/earlier"
sed -n 's/^# crates.txt: //p' "$work/earlier" | cat - "$work/lines" > "$work/known"
sed -n 's/^[0-9a-f]\{64\}  //p' "$work/earlier" | LC_ALL=C sort -u - "$work/files" > "$work/all"
# what an earlier run has not written so, and the new library does not have so either
while IFS= read -r file; do
    if [ -f "$dest/$file" ] && [ ! -L "$dest/$file" ]; then
        cmp -s "$dest/$file" "$work/new/$file" && continue
        sum=$(sha256sum < "$dest/$file")
        grep -qxF -e "${sum%% *}  $file" "$work/earlier" || echo "$file"
    elif [ -e "$dest/$file" ] || [ -L "$dest/$file" ]; then
        echo "$file"
    fi
done < "$work/all" > "$work/others"
for crate in $library; do
    grep "^$crate:" "$work/were" | grep -vxF -f "$work/known" | sed 's/^/crates.txt: /' || true
done >> "$work/others"
# each line in its place, or at the end
awk 'NR == FNR { order[NR] = $1; new[$1] = $0; next }
    !($1 in new) { print; next }
    !seen[$1]++ { print new[$1] }
    END { for (i = 1; i in order; i++) if (!seen[order[i]]) print new[order[i]] }' \
    "$work/lines" "$work/were" > "$work/new/crates.txt"

if [ -n "$option" ]; then
    cd "$work"
    ln -s "$dest" old
    echo crates.txt >> all
    while IFS= read -r file; do
        diff -uN "old/$file" "new/$file" || echo "$file" >> differs
    done < all
    sed 's/^/not as an earlier run has written it: /' others
    [ ! -s differs ] && [ ! -s others ]
    exit
fi
if [ -s "$work/others" ]; then
    echo "nothing is changed, since in $dest this is not as an earlier run has written it:" >&2
    cat "$work/others" >&2
    exit 1
fi
while IFS= read -r file; do
    if [ ! -f "$work/new/$file" ]; then
        rm -f -- "$dest/$file"
        rmdir -p -- "$dest/$(dirname -- "$file")" 2> /dev/null || true
    elif ! cmp -s "$work/new/$file" "$dest/$file"; then
        mkdir -p -- "$dest/$(dirname -- "$file")"
        cp -- "$work/new/$file" "$dest/$file"
    fi
done < "$work/all"
cp -- "$work/list" "$dest/$list"
cmp -s "$work/new/crates.txt" "$dest/crates.txt" || cp -- "$work/new/crates.txt" "$dest/crates.txt"
