#!/bin/sh
# Measures what install.sh has put into PREFIX, by each script here in turn: sh bench/figures.sh PREFIX > bench/figures.txt
#
# NEWER_GITS may name a folder of compare/newer_gits.py: then files are measured beside its Git of sid too. RUNS is how
# often a run is measured, or 5. The machine should do nothing else.
set -eu
runs=${RUNS:-5}
here=$(CDPATH='' cd -- "$(dirname -- "$0")" && pwd)
prefix=$(CDPATH='' cd -- "$1" && pwd)
package=$(dirname -- "$(find "$prefix" -type d -path '*packages/gix_config_value' | head -n 1)")
programs="$prefix/bin/git-settings $prefix/bin/config_check"

# prints a heading, and what a script prints: measure SCRIPT [WORD..]
measure() {
    printf '\n== %s, beside %s\n\n' "$1" "$(git version)"
    script=$1
    shift
    python3 "$here/$script" "$@"
}
date -u '+%Y-%m-%d'
measure program.py "$prefix/bin/config_value" --runs "$runs"
measure compare.py --prefix "$prefix"
measure python.py "$package"
# $programs is two words
# shellcheck disable=SC2086
{
    measure files.py $programs --prefix "$prefix" --package "$package" --runs "$runs"
    if [ -n "${NEWER_GITS:-}" ]; then
        (PATH="$NEWER_GITS/sid:$PATH" && measure files.py $programs --runs "$runs")
    fi
    measure growth.py "$prefix/bin/config_value" $programs --runs "$runs"
}
