#!/bin/bash
# Tests the program doses: run from the repository's root, after `tests/build.sh` made target/bin/doses.
# DOSES names another program to test.
set -euo pipefail

doses=${DOSES:-target/bin/doses}
data=crates/samples/data
[ -x "$doses" ] || { echo "tests: no $doses (tests/build.sh makes it)" >&2; exit 1; }
cases=0

# gives FILE LINE..: the whole output for a package
gives() {
    local file=$1
    shift
    cases=$((cases + 1))
    if [ "$("$doses" < "$file"; echo .)" != "$(printf '%s\n' "$@"; echo .)" ]; then
        echo "tests: doses $file: not what is expected" >&2
        exit 1
    fi
}

gives "$data/book_example" 'edition 3' '27 1250 0' 'total 1250'
gives "$data/book_no_doses" 'edition 3' 'total 0'
gives "$data/book_two_kinds" 'edition 3' '27 1250 0' '1 1 0' 'total 1251'
gives "$data/book_most_milligrams" 'edition 3' '27 5000000 0' 'total 5000000'
gives "$data/check23_sum" 'refused 23 at 20002'
gives "$data/check14_20002" 'refused 14 at 20002'
gives "$data/check02_one_more" 'refused 2 at 0'
gives "$data/check03_empty" 'refused 3 at 0'
gives tests/data/house-one-region.rpm 'edition 3' '27 1250 0' 'total 1250'
gives tests/data/house-make-64.rpm 'edition 3' '27 1250 0' 'total 1250'
gives tests/data/rb-one.rpm 'refused 14 at 20001'
gives tests/data/rb-i18n.rpm 'refused 14 at 20001'
gives "$data/locales_right" 'edition 3' '27 1250 0' 'total 1250'
gives "$data/check17_locales" 'refused 17 at 1004'
gives "$data/check10_signature_translated" 'refused 10 at 128'
gives tests/data/house-i18n.rpm 'edition 3' '27 1250 0' 'total 1250'
gives "$data/book_payload" 'edition 3' '27 1250 0' 'total 1250'
gives "$data/check27_dose_bit" 'refused 27 at 1004'
gives "$data/check27_payload_bit" 'refused 27 at 1004'
gives "$data/check27_digest_bit" 'refused 27 at 1004'
gives "$data/check27_from_the_lead" 'refused 27 at 1004'
gives "$data/check27_after_system" 'refused 18 at 1021'
gives "$data/check27_before_4097_bytes" 'refused 27 at 1004'

# 585 doses of 1250 mg
lines=('edition 3')
for _ in $(seq 585); do lines+=('27 1250 0'); done
gives "$data/book_limit" "${lines[@]}" 'total 731250'

# lots: one, none, the largest; all weighed kinds; 372, which fill a book
gives "$data/book_lot" 'edition 3' '27 1250 70315' 'total 1250'
gives "$data/book_lot_0" 'edition 3' '27 1250 0' 'total 1250'
gives "$data/book_lot_most" 'edition 3' '999 5000000 4294967295' 'total 5000000'
gives "$data/book_three_kinds" 'edition 3' '27 1250 70315' '1 1 0' '14 800 0' '27 2 1' 'total 2053'
gives "$data/check20_kind_ba" 'refused 20 at 0'
gives "$data/check21_lot_cut" 'refused 21 at 0'
gives "$data/check22_lot_oxide" 'refused 22 at 0'
gives "$data/check22_lot_milligrams" 'refused 22 at 0'
gives "$data/check23_lot_sum" 'refused 23 at 20002'
lines=('edition 3')
for _ in $(seq 372); do lines+=('27 1250 70315'); done
gives "$data/book_lots_limit" "${lines[@]}" 'total 465000'

# says WHAT OUTPUT LINE..: the whole output of a run
says() {
    local what=$1 said=$2
    shift 2
    cases=$((cases + 1))
    if [ "$said" != "$(printf '%s\n' "$@"; echo .)" ]; then
        echo "tests: doses: $what: not what is expected" >&2
        exit 1
    fi
}

right=tests/data/house-one-region.rpm
says 'input beyond the limit, however long' "$(head -c 200000 /dev/zero | "$doses"; echo .)" 'refused 2 at 0'
says 'input in two pieces' "$({ head -c 50 "$right"; sleep 0.2; tail -c +51 "$right"; } | "$doses"; echo .)" \
    'edition 3' '27 1250 0' 'total 1250'
says 'no input' "$("$doses" < /dev/null; echo .)" 'refused 3 at 0'

# flipped FILE PLACE BIT: the file with one bit otherwise
flipped() {
    local byte
    byte=$(od -An -v -tu1 -j "$2" -N 1 "$1")
    head -c "$2" "$1"
    printf '%b' "$(printf '\\x%02x' $((byte ^ $3)))"
    tail -c "+$(($2 + 2))" "$1"
}

# one bit otherwise in the digest (304), the dose (1872), the batch weight (1880) or the payload (1900)
for place in 304 319 1872 1873 1874 1875 1878 1880 1883 1900 2006; do
    for bit in 1 128; do
        says "bit $bit changed at $place" "$(flipped "$right" $place $bit | "$doses"; echo .)" 'refused 27 at 1004'
    done
done
# what stands before the header, the digest apart, is not digested: the lead's name, its reserved bytes
for place in 20 80 95; do
    says "a bit changed at $place" "$(flipped "$right" $place 1 | "$doses"; echo .)" 'edition 3' '27 1250 0' 'total 1250'
done
# nor is the gap before the header, but it is zero: from 164 to 168 here, from 4500 to 4504 in a package of rpmbuild
for place in 164 165 166 167; do
    for bit in 1 128; do
        says "bit $bit changed at $place" "$(flipped "$data/book_payload" $place $bit | "$doses"; echo .)" "refused 28 at $place"
    done
    says "a bit changed at $place, and cut there" \
        "$(flipped "$data/book_payload" $place 1 | head -c $place | "$doses"; echo .)" 'refused 5 at 168'
    says "a bit changed at $place, and cut behind" \
        "$(flipped "$data/book_payload" $place 1 | head -c $((place + 1)) | "$doses"; echo .)" "refused 28 at $place"
done
says 'bits changed at 165 and 167' "$({ head -c 165 "$data/book_payload"; printf '\1\0\1'; tail -c +169 "$data/book_payload"; } |
    "$doses"; echo .)" 'refused 28 at 165'
says 'a bit changed at 4503' "$(flipped tests/data/rb-one.rpm 4503 1 | "$doses"; echo .)" 'refused 28 at 4503'

# input that can't be read is no package
unread='cannot read standard input'
says 'a directory' "$("$doses" < /; echo .)" "$unread"
says 'a closed input' "$("$doses" <&-; echo .)" "$unread"
says 'an input for writing' "$("$doses" 0> /dev/null; echo .)" "$unread"
if command -v python3 > /dev/null; then
    # the other end of a terminal: bytes, and then an error
    broken='import os, pty, subprocess, sys, tty
ours, theirs = pty.openpty()
tty.setraw(theirs)
os.write(theirs, open(sys.argv[1], "rb").read(200))
os.close(theirs)
subprocess.run(sys.argv[2:], stdin=ours)'
    says 'an input that breaks off' "$(python3 -c "$broken" "$right" "$doses"; echo .)" "$unread"
fi

# README.md has what it says of its example
cases=$((cases + 1))
said=$("$doses" < "$right" | sed 's/^/    /')
[[ $(< README.md) == *"$said"* ]] || { echo 'tests: doses: README.md: not what the program says' >&2; exit 1; }

# arguments
usage='usage: doses < PACKAGE'
says 'a file as argument' "$("$doses" "$right" < "$right"; echo .)" "$usage"
says 'an empty argument' "$("$doses" '' < "$right"; echo .)" "$usage"
says 'two arguments' "$("$doses" --edition 1 < /; echo .)" "$usage"

echo "tests: doses: $cases cases right"
