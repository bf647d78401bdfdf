#!/bin/sh
# Versions compared by the library against rpm's own comparison (rpmvercmp of librpmio), and the
# vectors and the examples of include/station.h through the C call. Run from the repository's root.
#
#     tests/versions.sh [COUNT [SEED]]
#
# COUNT random pairs without tilde and caret, 200,000 if it isn't said, go both ways round through
# both. Without Python 3 nothing is compared here; without librpmio (Debian: rpm) the vectors and the
# header's examples alone.
# STATION_LIB names another library to test.
set -eu

lib=${STATION_LIB:-target/staticlib/libstation.a}
out=target/host/versions
count=${1:-200000}

[ -f "$lib" ] || { echo "versions: no $lib (tests/build.sh station makes it)" >&2; exit 1; }
command -v python3 > /dev/null || { echo "versions: no Python 3 here, left out"; exit 0; }
mkdir -p "$out"
gcc -O2 -Wall -Wextra -Werror -Iinclude tests/versions/versions.c "$lib" -o "$out/versions"

# same WHAT: the library's answers on the pairs are those that are known.
same() {
    "$out/versions" < "$out/pairs" > "$out/library"
    [ -s "$out/library" ] || { echo "versions: $1: no pair" >&2; exit 1; }
    cmp -s "$out/library" "$out/answers" && return
    echo "versions: $1: the library says otherwise, first:" >&2
    paste -d ' ' "$out/pairs" "$out/answers" "$out/library" |
        awk '$3 != $4 { print $1, $2, "known", $3, "library", $4; exit }' >&2
    exit 1
}

for stated in "vectors tests/vectors/versions.txt" "header include/station.h"; do
    # shellcheck disable=SC2086
    said=$(tests/versions/rpm.py $stated "$out/pairs" "$out/answers")
    same "$stated"
    echo "versions: $said: the library says the same, both ways round"
done

status=0
tests/versions/rpm.py random "$count" "${2:-1}" "$out/pairs" "$out/answers" || status=$?
case $status in
0)
    same "random pairs"
    echo "versions: $count random pairs: the library says what rpm says, both ways round"
    sort "$out/answers" | uniq -c | sed 's/^ */versions: answers: /'
    ;;
3) echo "versions: no librpmio here, its comparison is left out" ;;
*) exit 1 ;;
esac
