#!/bin/bash
# Tests docs/FORMAT.md: its catalogue is the program's and the printed tables', and its packages are read as it says. Run
# from the repository's root, after `tests/build.sh` made target/bin/doses, target/bin/inspect and target/bin/digest.
set -euo pipefail

page=docs/FORMAT.md
doses=target/bin/doses
for program in "$doses" target/bin/inspect target/bin/digest; do
    [ -x "$program" ] || { echo "tests: no $program (tests/build.sh makes it)" >&2; exit 1; }
done
work=$(mktemp -d)
trap 'rm -r "$work"' EXIT

# fail WHAT: ends the tests
fail() {
    echo "tests: format: $1" >&2
    exit 1
}

# the page's catalogue: PART TAG TYPE COUNT STATUS NAME, words joined by _
sed -n '/^<!-- catalogue -->$/,/^<!-- end -->$/p' "$page" | sed '1,3d;$d' | tr ' ' _ |
    awk -F '_?[|]_?' '{ print $2, $3, $4, $5, $6, $7 }' > "$work/page"
[ "$(wc -l < "$work/page")" = 82 ] || fail "$page: not 82 lines"

# the program's, in its order, without names
awk -F '[^A-Za-z0-9_]+' '
    BEGIN {
        split("char int8 int16 int32 - string bin string_array translated_string", types, " ")
    }
    /^const / { number[$2] = $4 }
    /^    line!/ {
        count = $5 == "None" ? "any" : $6
        at = $5 == "None" ? 6 : 7
        status = tolower($at)
        if (status == "requiredfrom")
            status = "required_from_edition_" $(at + 1) "_on"
        print ++lines <= 11 ? "signature" : "header", $3, number[$4] "_" types[number[$4]], count, status
    }' crates/catalogue/src/numbers.rt > "$work/program"
cut -d ' ' -f 1-5 "$work/page" | diff - "$work/program" || fail "$page: not the catalogue of crates/catalogue"

# the printed tables, but for the exceptions that examples/tags.h has too, and the house tags
awk -F ' *[|] *' '
    BEGIN {
        number["CHAR"] = "1_char"; number["INT8"] = "2_int8"; number["INT16"] = "3_int16"; number["INT32"] = "4_int32"
        number["STRING"] = "6_string"; number["BIN"] = "7_bin"; number["STRING_ARRAY"] = "8_string_array"
        number["I18NSTRING"] = "9_translated_string"
        print "header 20001 7_bin any required house_tag"
        print "header 20002 4_int32 1 required_from_edition_2_on house_tag"
    }
    /^Table/ { table = substr($1, 9) + 0 }
    $2 ~ /^[0-9]+$/ {
        count = $4 ~ /^[0-9]+$/ ? $4 : "any"
        status = $4 == "Required" || $5 == "Required" ? "required" : "optional"
        if (table <= 7)
            print "signature", $2, number[$3], $2 ~ /^10(02|05|11|12)$/ ? "any" : count, $2 == 100 ? "optional" : status, $1
        if (table == 4 || table > 7)
            print "header", $2, number[$3], $2 ~ /^(1004|1005|1016|1047|1114)$/ ? "any" : count, status, $1
    }' tests/reference/tables.txt | sort > "$work/printed"
sort "$work/page" | diff - "$work/printed" || fail "$page: not the printed tables"

# the package by hand, and one of a book of 24 bytes
# bytes FILE: the bytes that a listing spells
bytes() {
    printf '%b' "$(sed 's/#.*//' "$1" | tr -d ' \n' | sed 's/../\\x&/g')"
}
sed -n '/^```text$/,/^```$/p' "$page" | sed '/^```/d' > "$work/sky.txt"
bytes "$work/sky.txt" > "$work/sky.rpm"
[ "$(wc -c < "$work/sky.rpm")" = 840 ] || fail "$page: the package by hand has not 840 bytes"
awk '{ at = 16 * n++; if (n > 11) at -= 8; if (at != substr($0, index($0, "#") + 2) + 0) exit 1 }' "$work/sky.txt" ||
    fail "$page: an offset of the package by hand"
[ "$("$doses" < "$work/sky.rpm")" = $'edition 3\n27 1250 0\ntotal 1250' ] || fail "$page: the package by hand"
stated=$(head -c 164 "$work/sky.rpm" | tail -c 16 | od -An -v -tx1 | tr -d ' ')
[ "$stated" = "$(tail -c +169 "$work/sky.rpm" | md5sum | cut -c 1-32)" ] || fail "$page: the digest of the package by hand"
sed -n '/^## Digest$/,/^## /s/^    \(tail .*\)/\1/p' "$page" > "$work/commands"
[ "$(wc -l < "$work/commands")" = 2 ] || fail "$page: not two commands for a digest"
while read -r line; do
    said=$(bash -c "${line/FILE/$work/sky.rpm}" | cut -c 1-32)
    [ "$said" = "$stated" ] || fail "$page: $line"
done < "$work/commands"
# one bit otherwise, in the digest, in a text, in the book and in its last dose
for place in 148 163 792 830 839; do
    byte=$(od -An -v -tu1 -j "$place" -N 1 "$work/sky.rpm")
    other=$(printf '\\x%02x' $((byte ^ 1)))
    { head -c "$place" "$work/sky.rpm"; printf '%b' "$other"; tail -c "+$((place + 2))" "$work/sky.rpm"; } > "$work/flipped.rpm"
    [ "$("$doses" < "$work/flipped.rpm")" = 'refused 27 at 1004' ] || fail "$page: a bit changed at $place"
done
# .. and in the gap
for place in 164 165 166 167; do
    { head -c "$place" "$work/sky.rpm"; printf '\1'; tail -c "+$((place + 2))" "$work/sky.rpm"; } > "$work/stray.rpm"
    [ "$("$doses" < "$work/stray.rpm")" = "refused 28 at $place" ] || fail "$page: a bit changed at $place"
done
{
    head -c 144 "$work/sky.rpm"; printf '\0\0\2\xae'
    head -c 180 "$work/sky.rpm" | tail -c +149; printf '\0\0\0\x4e'
    head -c 756 "$work/sky.rpm" | tail -c +185; printf '\0\0\0\x18'
    head -c 780 "$work/sky.rpm" | tail -c +761; printf '\0\0\5\x49'
    head -c 830 "$work/sky.rpm" | tail -c +785
    printf '\x98\0\x1b\0\0\4\xe2\0\5\x02\0\7\x86\0\1\0\0\0\x64\x14\0\0\0\1'
} > "$work/own.rpm"
# put_digest FILE: as the page says
sed -n '/^6[.] At 148/,/^## /s/^       //p' "$page" > "$work/put"
[ "$(wc -l < "$work/put")" = 2 ] || fail "$page: not two lines that put the digest"
put_digest() { sed "s|sky.rpm|$1|" "$work/put" | bash; }
[ "$("$doses" < "$work/own.rpm")" = 'refused 27 at 1004' ] || fail "$page: a book of one's own, the digest wrong"
put_digest "$work/own.rpm"
[ "$("$doses" < "$work/own.rpm")" = 'refused 23 at 20002' ] || fail "$page: a book of one's own, the weight wrong"
{ head -c 780 "$work/own.rpm"; printf '\0\0\5\x46'; tail -c +785 "$work/own.rpm"; } > "$work/right.rpm"
put_digest "$work/right.rpm"
[ "$("$doses" < "$work/right.rpm")" = $'edition 3\n27 1250 0\n1 100 0\ntotal 1350' ] || fail "$page: a book of one's own"

# .. with lots: the page's example, then lot 0 and the largest
# word NUMBER: its four bytes
word() { printf '%b' "$(printf '%08x' "$1" | sed 's/../\\x&/g')"; }
# own HEX WEIGHT LINE..: what is read from the package by hand with this book in its place
own() {
    local hex=${1// /} weight=$2 size
    shift 2
    size=$((${#hex} / 2))
    {
        head -c 144 "$work/sky.rpm"; word $((662 + size))
        head -c 180 "$work/sky.rpm" | tail -c +149; word $((54 + size))
        head -c 756 "$work/sky.rpm" | tail -c +185; word "$size"
        head -c 780 "$work/sky.rpm" | tail -c +761; word "$weight"
        head -c 830 "$work/sky.rpm" | tail -c +785
        printf '%b' "$(sed 's/../\\x&/g' <<< "$hex")"
    } > "$work/lots.rpm"
    put_digest "$work/lots.rpm"
    [ "$("$doses" < "$work/lots.rpm")" = "$(printf '%s\n' "$@")" ] || fail "$page: the book $hex"
}
book=$(sed -n '/^### An example$/,/^## /s/^    \(02 00 07 [0-9A-F ]*\)$/\1/p' "$page")
own "$book" 2150 'edition 3' '27 1250 0' '1 100 0' '14 800 70315' 'total 2150'
own "$book" 72465 'refused 23 at 20002'
own 'AA 001B 000004E2 00000000' 1250 'edition 3' '27 1250 0' 'total 1250'
own 'AA 03E7 004C4B40 FFFFFFFF' 5000000 'edition 3' '999 5000000 4294967295' 'total 5000000'
own 'AA 001B 000004E2 000112' 1250 'refused 21 at 0'
own 'AB 001B 000004E2 00000000 00' 1250 'refused 20 at 0'
own "86 0001 00000001 AA 03E8 00000001 00000000" 2 'refused 22 at 7'

# the page's versions, both ways
sed -n '/^<!-- versions -->$/,/^<!-- end -->$/p' "$page" | sed '1,3d;$d' | tr -d ' ' |
    awk -F '[|]' '{ print $2, $3, $4; print $3, $2, $4 == "older" ? "newer" : $4 == "newer" ? "older" : $4 }' > "$work/versions"
[ "$(wc -l < "$work/versions")" = 22 ] || fail "$page: not 11 pairs of versions"
while read -r left right order; do
    [ "$(target/bin/inspect compare "$left" "$right")" = "$order" ] || fail "$page: $left is not $order against $right"
done < "$work/versions"

# the page's examples
if command -v python3 > /dev/null; then
    sed -n '/^```console$/,/^```$/p' "$page" | sed '/^```/d' > "$work/examples"
    sed -n 's/^\$ //p' "$work/examples" | while read -r line; do
        printf '$ %s\n' "$line"
        bash -c "$line" < /dev/null || true
    done > "$work/out"
    diff "$work/examples" "$work/out" || fail "$page: an example is not what the programs say"
fi

echo "tests: format: all right"
