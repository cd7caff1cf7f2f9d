# The beginning of a script that takes one word, and perhaps an option before it. `usage` shows both: "[--diff] DEST", or
# "[--one] [--other] DEST".
# It sets `option` to the option, or to nothing if it is not there, `word` to the word, `root` to the top of the
# repository, and `work` to a folder that is removed when the script ends. `begin` has to be the folder of this file.
# shellcheck shell=sh disable=SC2034,SC2154
option=
case "$usage " in
    *"[${1-}] "*)
        option=$1
        shift
        ;;
esac
if [ $# -ne 1 ]; then
    echo "usage: sh $0 $usage" >&2
    exit 2
fi
word=$1
root=$(CDPATH='' cd -- "$begin/.." && pwd)
work=$(mktemp -d)
trap 'rm -rf -- "$work"' EXIT
# some shells run no EXIT trap after a signal
trap 'exit 130' INT
trap 'exit 143' TERM
