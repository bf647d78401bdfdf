#!/bin/sh
# The host tests: run from the repository's root, after `tests/build.sh station`.
# STATION_LIB names another library to test.
set -eu

lib=${STATION_LIB:-target/staticlib/libstation.a}
out=target/host
rust="rustc --edition 2021 -O -D warnings"
cc="gcc -O2 -Wall -Wextra -Werror -Iinclude"
reading="--cfg reading" # empty for a library without station_read

[ -f "$lib" ] || { echo "tests: no $lib (tests/build.sh station makes it)" >&2; exit 1; }
mkdir -p "$out"

echo "tests: the reference's own tests"
$rust --test tests/reference/lib.rs -o "$out/reference_test"
"$out/reference_test" --quiet

echo "tests: the C calls, from C"
$cc tests/c/find_test.c "$lib" -o "$out/find_test"
"$out/find_test" tests/data
if [ -n "$reading" ]; then
    $cc tests/c/read_test.c "$lib" -o "$out/read_test"
    "$out/read_test" tests/data
    $cc tests/c/write_test.c "$lib" -o "$out/write_test"
    "$out/write_test" "$out/written.rpm"
    $cc tests/c/digest_test.c "$lib" -o "$out/digest_test"
    "$out/digest_test"
    $cc tests/c/version_test.c "$lib" -o "$out/version_test"
    "$out/version_test"
    if command -v rpm > /dev/null; then
        rpm -K --nosignature "$out/written.rpm" > "$out/rpm.log" || { cat "$out/rpm.log" >&2; exit 1; }
        said=$(rpm -qp --nosignature \
            --qf '%{name} %{version} %{os} [%{requirename}] [%{filenames}] %{sigsize}' "$out/written.rpm" 2> "$out/rpm.log")
        [ "$said" = "book 1 linux glass /srv/book 768" ] || { echo "tests: rpm reads $said" >&2; exit 1; }
    fi
fi

echo "tests: the C calls, compared with the reference"
$rust --crate-type rlib --crate-name reference tests/reference/lib.rs -o "$out/libreference.rlib"
$rust $reading tests/compare/main.rs --extern "reference=$out/libreference.rlib" \
    -C "link-arg=$lib" -o "$out/compare"
"$out/compare" tests/data "$out/difference.rpm"

echo "tests: digests, compared with md5sum and hashlib"
tests/md5sum.sh

echo "tests: versions, compared with rpm's comparison"
tests/versions.sh

if [ -n "$reading" ]; then
    echo "tests: the C calls on changed packages"
    tests/fuzz.sh
fi

if [ -n "$reading" ] && command -v python3 > /dev/null; then
    echo "tests: packages by tools/make_package.py"
    tests/make_package.sh
fi

echo "tests: all right"
