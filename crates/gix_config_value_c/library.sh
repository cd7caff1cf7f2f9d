#!/bin/sh
# Builds the static library of the C interface over the libraries that the gate has just proved:
# sh crates/gix_config_value_c/library.sh ARCHIVE, where ARCHIVE is an absolute path.
#
# `rt lib` uses nothing that `rt ci` makes, so it would prove those libraries once more. Instead this script calls what
# `rt lib` calls, `rattle build`, which proves the crate itself and compiles it. If `rt ci` has restored what earlier
# checks kept, `rt lib` uses that, so the script calls `rt lib`. The last line is 'N passed, M failed'.
set -u
cd -- "$(dirname -- "$0")/../.." || exit
crate=gix_config_value_c
kit=$(dirname -- "$(dirname -- "$(readlink -f -- "$(command -v rt)")")")

build() {
    archive=$1
    if ls crates/*/out/rlib/stamp > /dev/null 2>&1; then
        (cd crates/$crate && rt lib --cpu=x86-64) && cp -- crates/$crate/out/lib$crate.a "$archive"
        return
    fi
    # the crates that crates.txt names for this one, in the toolchain or here
    set --
    for name in std $(sed -n "s/^$crate staticlib: //p" crates.txt); do
        if [ -d "crates/$name" ]; then
            set -- "$@" --extern "$name=$PWD/crates/$name/out/rlib/$name.rlib" -L "dependency=$PWD/crates/$name/out/rlib"
        else
            set -- "$@" --extern "$name=$kit/rlibs/$name.rlib"
        fi
    done
    (cd crates/$crate && "$kit/bin/rattle" build --crate-name $crate --crate-type staticlib src/lib.rt \
        "$@" -L "dependency=$kit/rlibs" --antt-project "$kit/rattle/logic/antt-project.json" \
        --logic-built "$kit/logic_built" --toolchain "$kit/toolchain" --links $crate= --cpu x86-64 \
        --jobs 1 -o "$archive")
}

if build "$1"; then
    echo "1 passed, 0 failed"
else
    echo "0 passed, 1 failed"
    exit 1
fi
