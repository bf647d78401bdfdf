#!/bin/sh
# Puts the library for C at target/staticlib/libstation.a and the programs into target/bin: run from the repository's root.
#
#     tests/build.sh [NAME..]         proves and builds them: station, doses, inspect, digest and vectors, or those named
#     tests/build.sh --ci [NAME..]    takes the programs that `rt ci` has just built, and proves and builds the library alone
#
# What does not prove is not built. Each program is run once, with no input.
set -eu

built=
if [ "${1:-}" = --ci ]; then
    built=yes
    shift
fi
[ $# != 0 ] || set -- station doses inspect digest vectors

for name in "$@"; do
    [ -d "crates/$name/src" ] || { echo "build: no crate $name" >&2; exit 2; }
    if [ "$name" = station ]; then
        (cd crates/station && rt lib)
        install -D -m 644 crates/station/out/libstation.a target/staticlib/libstation.a
    else
        [ -n "$built" ] || (cd "crates/$name" && rt run < /dev/null > /dev/null)
        install -D "crates/$name/out/$name" "target/bin/$name"
    fi
done
