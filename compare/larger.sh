#!/bin/sh
# Runs the comparisons of this folder on a larger scale than the gate does: sh compare/larger.sh > compare/figures.txt
#
# The programs are those that `.ci/run` leaves in the crates. The installed Git comes first, and then sid and trixie of
# NEWER_GITS, a folder of newer_gits.py. GIX_CONFIG_VALUE_SOURCE names the Rust crate, as bench/upstream/build.py says.
# A run takes about an hour; what fails is told on the standard error.
set -eu
here=$(CDPATH='' cd -- "$(dirname -- "$0")" && pwd)
crates=$here/../crates
newer="${NEWER_GITS:?}/sid/git ${NEWER_GITS}/trixie/git"
for program in config_value path_answers git_settings; do
    [ -x "$crates/$program/out/$program" ] || { echo "$program is not built" >&2 && exit 1; }
done
work=$(mktemp -d)
trap 'rm -rf "$work"' EXIT

# runs a script with these programs beside each of these Gits, or - for none, and prints its last line each time:
# compare "PROGRAM.." "GIT.." SCRIPT [WORD..]
compare() {
    programs=
    for program in $1; do programs="$programs $crates/$program/out/$program"; done
    gits=$2 script=$3
    shift 3
    for git in $gits; do
        version=- beside=
        if [ "$git" != - ]; then version=$("$git" version) beside="--git $git"; fi
        # $programs and $beside are words
        # shellcheck disable=SC2086
        python3 "$here/$script" $programs "$@" $beside > "$work/said" 2>&1 || cat "$work/said" >&2
        echo "| \`$script $*\` | ${version#git version } | $(tail -n 1 "$work/said") |"
    done
}

date -u '+%Y-%m-%d'
printf '\n| Comparison | Git | What passed |\n|---|---|---|\n'
compare 'config_value path_answers' - upstream.py --lines 1000000 --calls 100000
compare config_value - fuzz.py --lines 6000000
compare 'config_value path_answers' "git $newer" git.py --texts 20000
compare git_settings git config_file.py --short --files 30000 --trees 500 --patterns 1000
compare git_settings "$newer" config_file.py --files 10000 --trees 300 --patterns 500
compare git_settings "$newer" gets.py --gets 5000
compare git_settings "git $newer" edits.py --edits 10000
compare git_settings "$newer" here.py --places 3000
