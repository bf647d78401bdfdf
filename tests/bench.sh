#!/bin/sh
# Measures the library against the reference, and against librpm and openssl where their
# development files are (Debian: librpm-dev, libssl-dev): run from the repository's root, after
# `tests/build.sh station`. STATION_LIB names another library to measure; LIBRPM=no leaves librpm
# out, OPENSSL=no openssl. BEFORE_LIB names an older library: it is measured beside the library, for
# the section on before and after, which stays as it is without.
#
#   tests/bench.sh           shows times, ratios and instruction counts
#   tests/bench.sh --write   writes them to docs/PERFORMANCE.md and docs/performance.svg
#   tests/bench.sh --check   fails where the library needs over 1.2 times the reference's
#                            instructions, or more than asked
#   tests/bench.sh --build   only builds target/bench/bench
#
# Needs rustc, Python 3 and binutils; instructions are counted where valgrind is there.
set -eu

lib=${STATION_LIB:-target/staticlib/libstation.a}
out=target/bench
# Functions start at multiples of 64, in the library as well: else times hang on where the
# linker happens to put them.
rust="rustc --edition 2021 -C opt-level=3 -C llvm-args=--align-all-functions=6 -D warnings"
mode=${1:---show}

case $mode in
--show | --write | --check | --build) ;;
*) echo "usage: tests/bench.sh [--write | --check | --build]" >&2; exit 2 ;;
esac
[ -f "$lib" ] || { echo "bench: no $lib (tests/build.sh station makes it)" >&2; exit 1; }
[ -z "${BEFORE_LIB:-}" ] || [ -f "$BEFORE_LIB" ] || { echo "bench: no $BEFORE_LIB" >&2; exit 1; }

mkdir -p "$out"
objcopy --set-section-alignment '.text*=64' "$lib" "$out/libstation.a"
before=
if [ -n "${BEFORE_LIB:-}" ]; then
    # The older library's own names get before_ to their front; the others' stay.
    nm --defined-only --extern-only --format=posix "$BEFORE_LIB" |
        awk 'NF > 1 { print $1, "before_" $1 }' > "$out/before.names"
    objcopy --redefine-syms="$out/before.names" --set-section-alignment '.text*=64' \
        "$BEFORE_LIB" "$out/libbefore.a"
    before="--cfg before -C link-arg=$out/libbefore.a"
fi
$rust --crate-type rlib --crate-name reference tests/reference/lib.rs -o "$out/libreference.rlib"
peers=
if [ "${LIBRPM:-}" != no ] && echo 'int main(void) { return 0; }' |
    cc -xc - -lrpm -lrpmio -o "$out/librpm" 2> "$out/librpm.log"; then
    peers="--cfg librpm"
else
    echo "bench: librpm is missing, it is not measured" >&2
fi
if [ "${OPENSSL:-}" != no ] && printf '#include <openssl/md5.h>\nint main(void) { return 0; }\n' |
    cc -xc - -lcrypto -o "$out/openssl" 2> "$out/openssl.log"; then
    peers="$peers --cfg openssl"
else
    echo "bench: openssl is missing, it is not measured" >&2
fi
$rust --check-cfg "cfg(librpm, openssl, before)" $peers $before tests/bench/main.rs \
    --extern "reference=$out/libreference.rlib" -C "link-arg=$out/libstation.a" -o "$out/bench"

# count PARTS-OF-NAMES: the cases to target/bench/counts/cases, a file per call beside it
count() {
    rm -rf "$out/counts"
    command -v valgrind > /dev/null || { echo "bench: no valgrind here, nothing is counted" >&2; return; }
    mkdir "$out/counts"
    valgrind -q --tool=callgrind --callgrind-out-file="$out/counts/call" \
        --zero-before=counted_call --dump-after=counted_call \
        "$out/bench" counts tests/data "$1" > "$out/counts/cases"
}

case $mode in
--build) ;;
--check)
    count " records, |versions "
    python3 tests/bench/report.py check "$out"
    ;;
*)
    count ""
    "$out/bench" times tests/data > "$out/times"
    python3 tests/bench/report.py "${mode#--}" "$out"
    ;;
esac
