#!/bin/bash
# Tests the call station_digest and the programs digest and vectors against md5sum, and against Python's hashlib where Python 3
# is there; and the table of crates/rounds against RFC 1321's definition of it. Run from the repository's root, after
# `tests/build.sh`. STATION_LIB names another library to test, DIGEST and VECTORS other programs.
set -euo pipefail

lib=${STATION_LIB:-target/staticlib/libstation.a}
digest=${DIGEST:-target/bin/digest}
vectors=${VECTORS:-target/bin/vectors}
[ -f "$lib" ] || { echo "tests: no $lib (tests/build.sh station makes it)" >&2; exit 1; }
for program in "$digest" "$vectors"; do
    [ -x "$program" ] || { echo "tests: no $program (tests/build.sh makes it)" >&2; exit 1; }
done
work=$(mktemp -d)
trap 'rm -r "$work"' EXIT
digests=$work/digests
gcc -std=c11 -O2 -Wall -Wextra -Werror -pedantic -Iinclude tests/digest/digests.c "$lib" -o "$digests"
python=$(command -v python3 || true)
cases=0

# fail WHAT: ends the tests
fail() {
    echo "tests: digest: $1" >&2
    exit 1
}

# says WHAT OUTPUT LINE: the whole output of the program
says() {
    cases=$((cases + 1))
    [ "$2" = "$3"$'\n'. ] || fail "$1: ${2%.}"
}

# ---- RFC 1321, A.5 ----

cat > "$work/suite" << 'END'
MD5 ("") = d41d8cd98f00b204e9800998ecf8427e
MD5 ("a") = 0cc175b9c0f1b6a831c399e269772661
MD5 ("abc") = 900150983cd24fb0d6963f7d28e17f72
MD5 ("message digest") = f96b697d7cb7938d525a2f31aaf161d0
MD5 ("abcdefghijklmnopqrstuvwxyz") = c3fcd3d76192e4007dfb496cca67e13b
MD5 ("ABCDEFGHIJKLMNOPQRSTUVWXYZabcdefghijklmnopqrstuvwxyz0123456789") = d174ab98d277d9f5a5611c2c9f419d9f
MD5 ("12345678901234567890123456789012345678901234567890123456789012345678901234567890") = 57edf4a22be3c955ac49da2e2107b67a
END
while IFS='"' read -r _ message printed; do
    printf '%s' "$message" > "$work/message"
    says "\"$message\"" "$("$digest" < "$work/message"; echo .)" "${printed#) = }"
    [ "$("$digests" of "$work/message")" = "${printed#) = }  $work/message" ] || fail "station_digest of \"$message\""
    [ "$(md5sum "$work/message")" = "${printed#) = }  $work/message" ] || fail "md5sum of \"$message\""
done < "$work/suite"
[ "$cases" = 7 ] || fail 'not seven vectors'
# the RFC breaks long lines
said=$("$vectors" | tr -d ' \n')
[[ $said == *"$(tr -d ' \n' < "$work/suite")" ]] || fail 'vectors: not what the RFC prints'

# ---- Lengths ----

# same WHAT FILE..: the call's digests are md5sum's and Python's
same() {
    local what=$1
    shift
    cases=$((cases + $#))
    "$digests" of "$@" > "$work/ours"
    [ "$(wc -l < "$work/ours")" = $# ] || fail "$what: not a digest for each"
    md5sum "$@" | diff "$work/ours" - || fail "$what: not md5sum's"
    [ -z "$python" ] || "$python" -c 'import hashlib, sys
for name in sys.argv[1:]:
    print(hashlib.md5(open(name, "rb").read()).hexdigest(), "", name)' "$@" | diff "$work/ours" - || fail "$what: not hashlib's"
}

# every length up to 300; around the ends of blocks, where the length still fits behind the padding, and where it does not
lengths=$(seq 0 300)
for end in 512 1024 4096 16384 65472 65536; do lengths+=" $(seq $((end - 10)) $((end + 1)))"; done
"$digests" bytes 1 70000 > "$work/random"
[ "$(wc -c < "$work/random")" = 70000 ] || fail 'no bytes'
mkdir "$work/lengths"
for length in $lengths; do head -c "$length" "$work/random" > "$work/lengths/$length"; done
same 'every length' "$work"/lengths/*
# the same lengths of the largest bytes, and of zeros
for byte in '\0' '\377'; do
    mkdir "$work/filled"
    for length in $(seq 0 130); do head -c "$length" /dev/zero | tr '\0' "$byte" > "$work/filled/$length"; done
    same "bytes of $byte" "$work"/filled/*
    rm -r "$work/filled"
done

# the program, up to its limit
for length in $lengths; do
    file=$work/lengths/$length
    if [ "$length" -le 65536 ]; then
        says "$length bytes" "$("$digest" < "$file"; echo .)" "$(md5sum < "$file" | cut -c 1-32)"
    fi
done

# ---- Large input ----

mkdir "$work/large"
for seed in 2 3 4; do
    for more in 0 1 55 56 63; do
        "$digests" bytes $seed $((seed * 1048576 / 2 + more)) > "$work/large/$seed.$more"
    done
done
same 'large input' "$work"/large/*
cmp -s "$work/large/2.0" <(head -c 1048576 "$work/large/3.0") && fail 'the same bytes for every seed'
# 2^32 bits and 7 bytes: the length in bits has more than 32
length=$((536870912 + 7))
cases=$((cases + 1))
[ "$("$digests" zeros $length)" = "$(head -c $length /dev/zero | md5sum | cut -c 1-32)" ] || fail 'over 2^32 bits'

# ---- The digest buffer ----

[ "$("$digests" room)" = $((13 * 65)) ] || fail 'the digest buffer'
cases=$((cases + 13 * 65))

# ---- The program ----

large='too large for this program'
says '65,536 bytes' "$(head -c 65536 "$work/random" | "$digest"; echo .)" "$(head -c 65536 "$work/random" | md5sum | cut -c 1-32)"
says '65,537 bytes' "$(head -c 65537 "$work/random" | "$digest"; echo .)" "$large"
says '65,538 bytes' "$(head -c 65538 "$work/random" | "$digest"; echo .)" "$large"
says '1 MiB' "$("$digest" < "$work/large/2.0"; echo .)" "$large"
says '1,000,000 bytes through a pipe' "$(head -c 1000000 /dev/zero | "$digest"; echo .)" "$large"
says 'no input' "$("$digest" < /dev/null; echo .)" d41d8cd98f00b204e9800998ecf8427e
says 'input in pieces' "$({ printf mess; sleep 0.2; printf 'age dig'; sleep 0.2; printf est; } | "$digest"; echo .)" \
    f96b697d7cb7938d525a2f31aaf161d0
unread='cannot read standard input'
says 'a directory' "$("$digest" < /; echo .)" "$unread"
says 'a closed input' "$("$digest" <&-; echo .)" "$unread"
says 'an argument' "$("$digest" "$work/random" < /dev/null; echo .)" 'usage: digest < FILE'

# ---- The table ----

# T[i] is the integer part of 4294967296 times abs(sin(i)), i from 1 to 64 in radians
if [ -n "$python" ]; then
    "$python" tests/digest/table.py crates/rounds/src/lib.rt crates/rounds/specs/Table.antt || fail 'the table of crates/rounds'
    cases=$((cases + 128))
else
    echo 'tests: digest: no Python 3 here: no hashlib, and the table is not tested'
fi

echo "tests: digest: $cases cases right"
