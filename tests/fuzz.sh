#!/bin/sh
# Fuzzing of the C calls: run from the repository's root, after `tests/build.sh station`.
#
#     tests/fuzz.sh                   a short run, the same each time, with rustc alone
#     tests/fuzz.sh MINUTES [SEED]    a long run with libFuzzer (clang), or without it with
#                                     the plain loop of the short run
#
# STATION_LIB names another library to test. Build products and what a run finds go to
# target/host/fuzz/; a long run starts from tests/fuzz/corpus and what earlier ones left in
# target/host/fuzz/found/.
set -eu

lib=${STATION_LIB:-target/staticlib/libstation.a}
out=target/host/fuzz
corpus=tests/fuzz/corpus
report=$out/difference.rpm
rust="rustc --edition 2021 -O -D warnings"
# Coverage of the reference; the target and its changes have none.
coverage="-C codegen-units=1 -C passes=sancov-module
    -C llvm-args=-sanitizer-coverage-level=4
    -C llvm-args=-sanitizer-coverage-inline-8bit-counters
    -C llvm-args=-sanitizer-coverage-pc-table
    -C llvm-args=-sanitizer-coverage-trace-compares"
short_run=30000

[ -f "$lib" ] || { echo "fuzz: no $lib (tests/build.sh station makes it)" >&2; exit 1; }
mkdir -p "$out"

# The reference, with the options given, and the target over it.
build() {
    $rust "$@" --crate-type rlib --crate-name reference tests/reference/lib.rs \
        -o "$out/libreference.rlib"
    $rust --cfg reading --crate-type rlib --crate-name fuzz tests/fuzz/lib.rs \
        --extern "reference=$out/libreference.rlib" -o "$out/libfuzz.rlib"
}

build_plain() {
    build
    $rust tests/fuzz/plain.rs --extern "fuzz=$out/libfuzz.rlib" -L "$out" \
        -C "link-arg=$lib" -o "$out/plain"
}

has_libfuzzer() {
    command -v clang > /dev/null || return 1
    echo 'int LLVMFuzzerTestOneInput(void) { return 0; }' > "$out/empty.c"
    clang -fsanitize=fuzzer "$out/empty.c" -o "$out/empty" 2> "$out/clang.log"
}

build_libfuzzer() {
    # shellcheck disable=SC2086
    build $coverage
    $rust -C panic=abort --crate-type staticlib tests/fuzz/libfuzzer.rs \
        --extern "fuzz=$out/libfuzz.rlib" -L "$out" -o "$out/libtarget.a"
    clang -fsanitize=fuzzer "$out/libtarget.a" "$lib" -o "$out/libfuzzer"
}

# A number that libFuzzer says at its end.
stat() {
    sed -n "s/^stat::$1: *//p" "$out/log"
}

long_run() {
    rm -rf "$out/findings" "$report"
    mkdir -p "$out/found" "$out/findings"
    status=0
    begun=$(date +%s)
    # No time limit of libFuzzer's: the target has its own.
    FUZZ_REPORT=$report "$out/libfuzzer" -max_total_time=$((60 * $1)) -seed="$2" -timeout=0 \
        -max_len=8192 -len_control=0 -print_final_stats=1 -artifact_prefix="$out/findings/" \
        "$out/found" "$corpus" > "$out/log" 2>&1 || status=$?
    seconds=$(($(date +%s) - begun))
    [ "$status" = 0 ] || grep -a -A 2 -e DIFFERENCE -e '^SUMMARY' "$out/log" || tail -n 40 "$out/log"
    executions=$(stat number_of_executed_units)
    executions=${executions:-0}
    findings=$(find "$out/findings" -type f | wc -l)
    echo "fuzz: libFuzzer, $(clang --version | head -n 1), seed $2"
    echo "fuzz: $executions executions in $seconds s ($((executions / (seconds + !seconds))) a second)"
    grep -a '^#[0-9].* cov: ' "$out/log" | tail -n 1 | sed \
        's/^.* cov: \([0-9]*\) ft: \([0-9]*\) corp: \([0-9]*\).*/fuzz: coverage: \1 edges of the reference, \2 features; \3 inputs kept/'
    sed -n '/^fuzz: .*answers/p' "$out/log"
    echo "fuzz: $findings findings"
    for file in "$out/findings"/* "$report"; do
        [ ! -f "$file" ] || echo "fuzz: see $file"
    done
    [ "$status" = 0 ] && [ "$findings" = 0 ]
}

case $# in
0)
    if command -v python3 > /dev/null; then
        tests/fuzz/make_corpus.py --check
    fi
    build_plain
    "$out/plain" "$corpus" "$report" "$short_run"
    ;;
1 | 2)
    if has_libfuzzer; then
        build_libfuzzer
        long_run "$1" "${2:-1}"
    else
        echo "fuzz: no libFuzzer here (Debian: clang, libclang-rt-14-dev); the plain loop instead"
        build_plain
        "$out/plain" "$corpus" "$report" "${1}m" "${2:-1}"
    fi
    ;;
*)
    echo "usage: tests/fuzz.sh [MINUTES [SEED]]" >&2
    exit 2
    ;;
esac
