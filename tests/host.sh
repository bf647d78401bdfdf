#!/bin/bash
# Tests the example host program, examples/station.c, and docs/REFUSALS.md: run from the repository's root, after
# `tests/build.sh station`. STATION_LIB names another library to test.
set -euo pipefail

lib=${STATION_LIB:-target/staticlib/libstation.a}
station=target/station
data=crates/samples/data
[ -f "$lib" ] || { echo "tests: no $lib (tests/build.sh station makes it)" >&2; exit 1; }
work=$(mktemp -d)
trap 'rm -r "$work"' EXIT
cases=0 numbers=
mkdir -p target
gcc -std=c11 -O2 -Wall -Wextra -Werror -pedantic -Iinclude examples/station.c "$lib" -o "$station"

# fail WHAT: ends the tests
fail() {
    echo "tests: host: $1" >&2
    exit 1
}

# runs STATUS ARGUMENT..: the program, which is to end so; its output is left in $work/out and $work/err
runs() {
    local want=$1 got=0
    shift
    cases=$((cases + 1))
    "$station" "$@" > "$work/out" 2> "$work/err" || got=$?
    [ "$got" = "$want" ] || fail "station $*: ended with $got"
}

# says TEXT: a line of the output has the text
says() {
    grep -qF -e "$1" "$work/out" || { cat "$work/out"; fail "no '$1'"; }
}

# accepts ARGUMENTS LINE..: the whole output
accepts() {
    local arguments=$1
    shift
    runs 0 $arguments
    printf '%s\n' "$@" | cmp - "$work/out" || fail "station $arguments"
    [ ! -s "$work/err" ] || fail "station $arguments: a message"
}

# refuses ARGUMENTS NUMBER PLACE [TEXT..]: the first line, words for each part, the last line, and these texts
refuses() {
    local arguments=$1 number=$2 place=$3 part
    shift 3
    runs 1 $arguments
    [ "$(head -n 1 "$work/out")" = "refused $number at $place" ] || fail "station $arguments: $(head -n 1 "$work/out")"
    for part in Means Place Often 'To do'; do
        grep -q "^$part:  [^ ]" "$work/out" || fail "station $arguments: no '$part'"
    done
    [ "$(tail -n 1 "$work/out")" = 'Weigh nothing from this package.' ] || fail "station $arguments: the last line"
    [ ! -s "$work/err" ] || fail "station $arguments: a message"
    for part in "$@"; do says "$part"; done
    numbers="$numbers $number"
}

# trouble WORD ARGUMENT..: nothing but a message that has the word
trouble() {
    local word=$1
    shift
    runs 2 "$@"
    [ ! -s "$work/out" ] || fail "station $*: an output"
    grep -q -e "$word" "$work/err" || fail "station $*: the message"
}

title='accepted at edition 3: "book", version "1", release "1"'
accepts "$data/book_example" "$title" 'oxide  27     1250 mg  lot 0' '1 dose, 1250 mg in all'
accepts "--edition 3 $data/book_example" "$title" 'oxide  27     1250 mg  lot 0' '1 dose, 1250 mg in all'
accepts "--edition 2 $data/book_example" "${title/3/2}" 'oxide  27     1250 mg  lot 0' '1 dose, 1250 mg in all'
accepts "--edition 1 $data/book_example" "${title/3/1}" 'oxide  27     1250 mg  lot 0' '1 dose, 1250 mg in all'
accepts "--edition 1 $data/check23_sum" "${title/3/1}" 'oxide  27     1250 mg  lot 0' '1 dose, 1250 mg in all'
accepts "$data/book_two_kinds" "$title" 'oxide  27     1250 mg  lot 0' 'oxide   1        1 mg  lot 0' '2 doses, 1251 mg in all'
accepts "$data/book_payload" "$title" 'oxide  27     1250 mg  lot 0' '1 dose, 1250 mg in all'
accepts "$data/book_most_milligrams" "$title" 'oxide  27  5000000 mg  lot 0' '1 dose, 5000000 mg in all'
accepts "$data/book_no_doses" "$title" '0 doses, 0 mg in all'
accepts "$data/locales_right" "$title" 'oxide  27     1250 mg  lot 0' '1 dose, 1250 mg in all'
accepts "--edition 1 $data/locales_right" "${title/3/1}" 'oxide  27     1250 mg  lot 0' '1 dose, 1250 mg in all'
lines=()
for _ in $(seq 585); do lines+=('oxide  27     1250 mg  lot 0'); done
accepts "$data/book_limit" "$title" "${lines[@]}" '585 doses, 731250 mg in all'
accepts "$data/book_lot" "$title" 'oxide  27     1250 mg  lot 70315' '1 dose, 1250 mg in all'
accepts "$data/book_lot_0" "$title" 'oxide  27     1250 mg  lot 0' '1 dose, 1250 mg in all'
accepts "$data/book_lot_most" "$title" 'oxide 999  5000000 mg  lot 4294967295' '1 dose, 5000000 mg in all'
accepts "$data/book_three_kinds" "$title" 'oxide  27     1250 mg  lot 70315' 'oxide   1        1 mg  lot 0' \
    'oxide  14      800 mg  lot 0' 'oxide  27        2 mg  lot 1' '4 doses, 2053 mg in all'
lines=()
for _ in $(seq 372); do lines+=('oxide  27     1250 mg  lot 70315'); done
accepts "$data/book_lots_limit" "$title" "${lines[@]}" '372 doses, 465000 mg in all'
for name in house-one-region house-make-64; do
    runs 0 "tests/data/$name.rpm"
    [ "$(tail -n +2 "$work/out")" = $'oxide  27     1250 mg  lot 0\n1 dose, 1250 mg in all' ] || fail "$name"
done

refuses "--edition 0 $data/book_example" 1 0 'no place in the package'
refuses "--edition 4 $data/book_example" 1 0
refuses "--edition 4294967295 $data/check03_empty" 1 0
refuses "$data/check02_one_more" 2 0
refuses "$data/check03_95_bytes" 3 95 "95 bytes, the package's length"
refuses "$data/check03_empty" 3 0
refuses "$data/check04_magic" 4 0 "the lead's magic: ED AB EE DA"
refuses "$data/check04_major" 4 4 "the lead's major version: 04"
refuses "$data/check04_minor" 4 5 "the lead's minor version: 01"
refuses "$data/check04_type" 4 6 "the lead's type: 00 01" 'a binary package'
refuses "$data/check04_name" 4 10 "the lead's name: 78"
refuses "$data/check04_system" 4 76 "the lead's system: 00 02"
refuses "$data/check04_signature_type" 4 78 "the lead's signature type: 00 06"
refuses "$data/check05_signature" 5 96 'where the signature should start; bytes of the package: 111'
refuses "$data/check05_header" 5 136 'where the header should start; bytes of the package: 151'
refuses "$data/check05_header_behind_end" 5 136 'where the header should start; bytes of the package: 132'
refuses "$data/check06_magic" 6 136 'in the header, which starts at 136 with 8E AD E8 02 00 00 00 00'
refuses "$data/check06_reserved" 6 140 '8E AD E8 01 00 00 00 01'
refuses "$data/check07_none" 7 144 'records: 0'
refuses "$data/check07_513" 7 144 'records: 513'
refuses "$data/check08_largest" 8 148 'bytes of store: 4294967295, bytes of the package: 251'
refuses "$data/check09_type_5" 9 152 "record 1 of 4 in the header's index" 'tag 1000 (RPMTAG_NAME), type 5'
refuses "$data/check10_none" 10 168 "record 2 of 4 in the header's index" 'count 0'
refuses "$data/check10_two_strings" 10 152 'tag 1000 (RPMTAG_NAME), type 6' 'count 2'
refuses "$data/check10_signature_translated" 10 128 "record 2 of 2 in the signature's index" 'tag 1016, type 9' 'count 2'
refuses "$data/check10_translated_none" 10 152 "the header's index" 'tag 1016 (RPMTAG_GROUP), type 9' 'count 0'
refuses "$data/check11_int32_at_2" 11 152 'tag 1, type 4, offset 2, count 1; bytes of store: 8'
refuses "$data/check12_product_wraps" 12 152 'count 1073741824'
refuses "$data/check13_tag_twice" 13 200 'record 4 of 4'
refuses "$data/check14_signature_1000" 14 1000 "the signature's tag 1000 (SIGTAG_SIGSIZE) is absent"
refuses "$data/check14_20001" 14 20001 "the header's tag 20001 (the book) is absent" 'right is bin, any count'
refuses "$data/check14_20002" 14 20002 'the batch weight'
refuses "$data/check15_20002_type" 15 20002 'is bin, count 4' 'right is int32, count 1'
refuses "$data/check16_whole_length" 16 1000 '2000 (00 00 07 D0)' 'starts at 168; from there to the end are 784 bytes'
refuses "$data/check17_digest_alone" 17 1005 "the signature's tag 1005 (SIGTAG_GPG) is absent" '1011 needs it'
refuses "$data/check17_leader_missing" 17 1081 '1080, 1081, 1082'
refuses "$data/check17_old_names" 17 1027 'beside it no 1116 to 1118'
locales='rule: it has no more translations than the package lists locales (100)'
refuses "$data/check17_locales" 17 1004 "the header's tag 1004 (RPMTAG_SUMMARY) is translated string, count 3" "$locales" \
    "the header's tag 100 (RPMTAG_HEADERI18NTABLE) is string array, count 1"
refuses "--edition 1 $data/check17_locales" 17 1004 "$locales"
refuses "$data/check17_locales_one_too_many" 17 1004 'is translated string, count 3' 'is string array, count 2' "$locales"
refuses "$data/check17_locales_description" 17 1005 "the header's tag 1005 (RPMTAG_DESCRIPTION) is translated" "$locales"
refuses "$data/check17_locales_no_line" 17 30000 "the header's tag 30000 is translated string, count 3" "$locales"
refuses "$data/check17_locales_index_order" 17 30000 "$locales"
refuses "$data/check17_digest_before_locales" 17 1005 "the signature's tag 1005 (SIGTAG_GPG) is absent" '1011 needs it'
refuses "$data/check17_leader_before_locales" 17 1081 '1080, 1081, 1082'
refuses "$data/check18_system" 18 1021 '(RPMTAG_OS)' '"linuxx"'
refuses "$data/check18_index" 18 1116 '1 (00 00 00 01)'
refuses "$data/check18_directory" 18 1118 '"/usr/share"'
refuses "$data/check19_4097_bytes" 19 20001 'count 4097'
refuses "$data/check20_kind_96" 20 0 'kind 96 (hex), bytes of body: 6, left in the book: 0'
refuses "--edition 1 $data/book_two_kinds" 20 12 'record: 98 00 01 00 00 00 01 00 05'
for edition in 1 2; do
    refuses "--edition $edition $data/book_lot" 20 0 'kind AA (hex), bytes of body: 10, left in the book: 10' \
        'record: AA 00 1B 00 00 04 E2 00 01 12 AB'
done
refuses "--edition 1 $data/book_three_kinds" 20 0 'kind AA (hex)'
refuses "$data/check20_kind_ba" 20 0 'kind BA (hex), bytes of body: 10, left in the book: 10'
refuses "$data/check21_date_cut" 21 0 'record: 14 00 00'
refuses "$data/check21_lot_cut" 21 0 'kind AA (hex), bytes of body: 10, left in the book: 9'
refuses "$data/check22_oxide_1000" 22 0 'oxide 1000, 1250 mg'
refuses "$data/check22_milligrams" 22 0 'oxide 27, 5000001 mg'
refuses "$data/check22_lot_oxide" 22 0 'oxide 1000, 1250 mg'
refuses "$data/check22_lot_milligrams" 22 0 'oxide 27, 5000001 mg'
refuses "$data/check23_sum" 23 20002 '1249 (00 00 04 E1)' 'the doses sum to 1250 mg'
refuses "--edition 2 $data/check23_sum" 23 20002 '1249 (00 00 04 E1)' 'the doses sum to 1250 mg'
refuses "$data/check23_lot_sum" 23 20002 '71565 (00 01 17 8D)' 'the doses sum to 1250 mg'
refuses tests/data/rb-one.rpm 14 20001
refuses tests/data/rb-i18n.rpm 14 20001

# one bit otherwise in the dose; another first and another last byte of the digest, which is at 304
# digest_from PLACE FILE: the digest of the bytes from there on, as the program writes it
digest_from() {
    tail -c "+$(($1 + 1))" "$2" | md5sum | cut -c 1-32 | sed 's/../ &/g;s/^ //' | tr a-f A-F
}
right=tests/data/house-one-region.rpm
stated=$(digest_from 336 "$right")
md5="the signature's tag 1004 (SIGTAG_MD5) is bin, count 16, at file offset 304"
{ head -c 1878 "$right"; printf '\xe3'; tail -c +1880 "$right"; } > "$work/dose"
for edition in 1 2 3; do
    refuses "--edition $edition $work/dose" 27 1004 'the package is damaged' "$md5: $stated" \
        'the header starts at 336; from there to the end are 1671 bytes' "their digest is $(digest_from 336 "$work/dose")"
done
[ "$(digest_from 336 "$work/dose")" != "$stated" ] || fail 'no bit was changed'
{ head -c 304 "$right"; printf '\0'; tail -c +306 "$right"; } > "$work/digest"
refuses "$work/digest" 27 1004 "$md5: 00 ${stated#* }" "their digest is $stated"
{ head -c 319 "$right"; printf '\0'; tail -c +321 "$right"; } > "$work/digest"
refuses "$work/digest" 27 1004 "$md5: ${stated% *} 00" "their digest is $stated"

# the samples, whose digest is at 148 and whose header starts at 168
for name in dose_bit payload_bit payload_first_bit digest_bit digest_first_bit from_the_lead without_payload; do
    for edition in 1 2 3; do
        refuses "--edition $edition $data/check27_$name" 27 1004 'count 16, at file offset 148: ' \
            'the header starts at 168; from there to the end are 791 bytes' "their digest is $(digest_from 168 "$data/check27_$name")"
    done
done
refuses "$data/check27_after_system" 18 1021
refuses "$data/check27_before_4097_bytes" 27 1004

# stray bytes in the gap
# put FILE PLACE HEX: the file with these bytes there
put() {
    local hex=${3// /}
    head -c "$2" "$1"
    printf '%b' "$(sed 's/../\\x&/g' <<< "$hex")"
    tail -c "+$(($2 + ${#hex} / 2 + 1))" "$1"
}
# strays ARGUMENTS PLACE START H GAP: the whole output, for a gap from START to H of which these bytes are there
strays() {
    local file=${1##* } bytes=($5)
    refuses "$1" 28 "$2"
    diff - "$work/out" << END || fail "station $1"
refused 28 at $2
Means:  a byte between the signature's end and the header's start is not zero.
Place:  file offset $2, in the gap between signature and header: ${bytes[$2 - $3]}
        the gap starts at $3, the header should start at $4; bytes of the package: $(wc -c < "$file")
        bytes of the gap: $5, right is 00 for each
Often:  stray memory, left there by the program that wrote the package; bytes that were changed on the way.
To do:  Fetch the package again. If that does not help, ask the supplier for a package that has zero bytes there.
Weigh nothing from this package.
END
}
# a sample, whose gap is from 164 to 168: each byte, and the first of several
sample=$data/book_payload stray=$work/stray
for gap in '164 01 00 00 00' '165 00 80 00 00' '166 00 00 20 00' '167 00 00 00 FF' '164 FF FF FF FF' '165 00 5A 00 41'; do
    put "$sample" 164 "${gap#* }" > "$stray"
    for edition in 1 2 3; do strays "--edition $edition $stray" "${gap%% *}" 164 168 "${gap#* }"; done
done
# the bytes beside the gap are not its own: the digest's last, the header's first
put "$sample" 163 00 > "$work/beside"
refuses "$work/beside" 27 1004
put "$sample" 168 00 > "$work/beside"
refuses "$work/beside" 6 168
# cut in the gap: zero bytes, and a stray one that is there, or not there any more
for length in 164 165 166 167 168 183; do
    head -c "$length" "$sample" > "$work/cut"
    refuses "$work/cut" 5 168 "where the header should start; bytes of the package: $length"
done
for length in 164 165; do
    head -c "$length" "$stray" > "$work/cut"
    refuses "$work/cut" 5 168 "where the header should start; bytes of the package: $length"
done
for gap in '166 00 5A' '167 00 5A 00' '168 00 5A 00 41' '183 00 5A 00 41'; do
    head -c "${gap%% *}" "$stray" > "$work/cut"
    strays "$work/cut" 165 164 168 "${gap#* }"
done
# before the header's checks and the digest, behind those of edition, lead and signature
put "$stray" 168 00 > "$work/two"
strays "$work/two" 165 164 168 '00 5A 00 41'
put "$stray" 148 00 > "$work/two"
strays "$work/two" 165 164 168 '00 5A 00 41'
refuses "--edition 4 $stray" 1 0
put "$stray" 77 02 > "$work/two"
refuses "$work/two" 4 76
put "$stray" 119 05 > "$work/two"
refuses "$work/two" 9 112 "record 1 of 2 in the signature's index"
put "$stray" 128 000003E8 > "$work/two"
refuses "$work/two" 13 128 "record 2 of 2 in the signature's index"
# a package of rpmbuild
put tests/data/rb-one.rpm 4502 41 > "$work/rpmbuild"
strays "$work/rpmbuild" 4502 4500 4504 '00 00 41 00'

# 24 cannot come up: the program has room for every book
for number in $(seq 23) 27 28; do
    case "$numbers " in *" $number "*) ;; *) fail "no refusal $number" ;; esac
done

# records of the signature; tags that both structures have
python=$(command -v python3 || true)
if [ -n "$python" ]; then
    # made OPTION..: a package of one dose
    made() { "$python" tools/make_package.py --book '86 001B 000004E2' "$@" "$work/made" > "$work/line"; }
    made --without 1000
    refuses "$work/made" 14 1000 "the header's tag 1000 (RPMTAG_NAME) is absent"
    made --without 1005
    refuses "$work/made" 14 1005 "the header's tag 1005 (RPMTAG_DESCRIPTION) is absent"
    made --signature-entry 1007:string:12
    refuses "$work/made" 15 1007 "the signature's tag 1007 (SIGTAG_PAYLOADSIZE) is string, count 1" '"12"'
    made --signature-entry 1004:bin:00
    refuses "$work/made" 15 1004 "the signature's tag 1004 (SIGTAG_MD5) is bin, count 1" 'right is bin, count 16'
    made --entry 1007:int32:7,8
    refuses "$work/made" 15 1007 "the header's tag 1007 (RPMTAG_BUILDHOST) is int32, count 2" '7 (00 00 00 07), ..'
    made --entry 1004:string:Blue
    refuses "$work/made" 15 1004 "the header's tag 1004 (RPMTAG_SUMMARY) is string" 'right is translated string, any count'
    # a tag without a line, between those of the files
    made --entry 1031:strings:a,b
    LC_ALL=C sed 's/\x04\x07\x00\x00\x00\x08/\x04\x07\x00\x00\x00\x09/' "$work/made" > "$work/translated"
    refuses "$work/translated" 17 1031 "the header's tag 1031 is translated string, count 2" "$locales"
    made --signature-entry 1012:bin:0102
    refuses "$work/made" 17 1002 "the signature's tag 1002 (SIGTAG_PGP) is absent"
    made --entry 1050:strings:a
    refuses "$work/made" 17 1050 'is string array, count 1' 'tag 1049 (RPMTAG_REQUIRENAME) is string array, count 2'
    made --entry "1021:string:$(printf 'li\nux"\\\e[31m')"
    refuses "$work/made" 18 1021 '"li\x0Aux\x22\x5C\x1B[31m"'
    made --entry "1021:string:$(printf '%064d')"
    refuses "$work/made" 18 1021 "\"$(printf '%064d')\""
    made --entry "1021:string:$(printf '%065d')"
    refuses "$work/made" 18 1021 "\"$(printf '%064d')\".."
    made --book '98 0001 00000001 0005' --weight 1
    refuses "$work/made" 23 20002 '1 (00 00 00 01)' 'the doses sum to 1251 mg'
    made --lot 14:800:4294967295 --weight 1
    refuses "$work/made" 23 20002 '1 (00 00 00 01)' 'the doses sum to 2050 mg'
    made --lot 14:800:4294967295 --lot 1:1:0
    accepts "$work/made" "$title" 'oxide  27     1250 mg  lot 0' 'oxide  14      800 mg  lot 4294967295' \
        'oxide   1        1 mg  lot 0' '3 doses, 2051 mg in all'
    { head -c 119 "$work/made"; printf '\5'; tail -c +121 "$work/made"; } > "$work/type"
    refuses "$work/type" 9 112 "record 1 of 6 in the signature's index"
    # malformed lots: a message and no package
    for lot in 27 27:1250 27:1250:7:0 27:1250:-7 27:1250:A 27:1250:4294967296 0:1250:7 27:0:7; do
        cases=$((cases + 1))
        rm -f "$work/made"
        ! "$python" tools/make_package.py --lot "$lot" "$work/made" > "$work/line" 2> "$work/err" || fail "--lot $lot is taken"
        grep -q -e "--lot" "$work/err" && ! grep -q Traceback "$work/err" && [ ! -e "$work/made" ] || fail "--lot $lot"
    done
    # gaps of every size, the first byte stray, or the last
    for size in 1 2 3 4 5 6 7 8; do
        entry=30000:bin:$(printf '41%.0s' $(seq $size))
        start=$((372 + size)) h=$(((372 + size + 7) / 8 * 8)) zeros=
        made --signature-entry "$entry"
        runs 0 "$work/made"
        [ "$start" != "$h" ] || continue
        for _ in $(seq $((h - start - 1))); do zeros="$zeros 00"; done
        made --signature-entry "$entry" --gap 5A
        strays "$work/made" "$start" "$start" "$h" "5A$zeros"
        made --signature-entry "$entry" --gap "$zeros 80"
        strays "$work/made" $((h - 1)) "$start" "$h" "${zeros:1}${zeros:+ }80"
    done
fi

# standard input, in pieces and without end
runs 0 - < "$data/book_example"
says '1 dose, 1250 mg in all'
runs 0 - < <(head -c 50 "$data/book_example"; sleep 0.2; tail -c +51 "$data/book_example")
refuses - 2 0 < /dev/zero
refuses - 3 0 < /dev/null

# arguments and files
trouble usage
trouble usage --edition
trouble usage --edition 2
trouble usage --edition 2 "$data/right" more
trouble usage --edition two "$data/right"
trouble usage --edition '' "$data/right"
trouble usage --edition -1 "$data/right"
trouble usage --edition 4294967296 "$data/right"
trouble usage --edition 18446744073709551618 "$data/right"
trouble usage --refusals "$data/right"
trouble usage --weigh
trouble 'No such file' "$data/none"
trouble 'No such file' ''
trouble 'directory' "$data"
trouble 'directory' - < "$data"
trouble 'standard input' - <&-

# versions: the paper's examples and others, both ways
# compares LEFT RIGHT WORDS: the whole output
compares() {
    runs 0 --compare "$1" "$2"
    printf '"%s" is %s "%s"\n' "$1" "$3" "$2" | cmp - "$work/out" || fail "station --compare $1 $2"
    [ ! -s "$work/err" ] || fail "station --compare $1 $2: a message"
}
# alike TEXT..: each the same as every other
alike() {
    local left right
    for left in "$@"; do for right in "$@"; do compares "$left" "$right" 'the same as'; done; done
}
# rising TEXT..: each older than those behind it
rising() {
    local left right
    while [ $# -gt 1 ]; do
        left=$1
        shift
        for right in "$@"; do
            compares "$left" "$right" 'older than'
            compares "$right" "$left" 'newer than'
        done
    done
}
alike 1.0 1_0 1.00
alike '' . ~^
alike 1.2-3 1.2.3 01..2-3.
rising '' 1 1.a 1.1
rising '' A a aa b 0 9 10 10.A 10.a 10.0 11 18446744073709551615 18446744073709551616

# .. and whether one meets what is required: kiln at least 2.0, clay exactly 1.0-2, oxide above 1.0.rc1, /bin/sh any
# met yes|no NAME VERSION FILE: the whole output
met() {
    local status=0 words=meets
    [ "$1" = yes ] || { status=1 words='does not meet'; }
    runs "$status" --meets "$2" "$3" "$4"
    printf '%s: "%s" %s what is required for "%s"\n' "$1" "$3" "$words" "$2" | cmp - "$work/out" ||
        fail "station --meets $2 $3 $4"
    [ ! -s "$work/err" ] || fail "station --meets $2 $3 $4: a message"
}
# unmet NAME VERSION FILE NUMBER PLACE [TEXT]: refused, with words for each part and none on weighing
unmet() {
    local part
    runs 1 --meets "$1" "$2" "$3"
    [ "$(head -n 1 "$work/out")" = "refused $4 at $5" ] || fail "station --meets $1 $2 $3: $(head -n 1 "$work/out")"
    for part in Means Place Often 'To do'; do
        grep -q "^$part:  [^ ]" "$work/out" || fail "station --meets $1 $2 $3: no '$part'"
    done
    grep -q Weigh "$work/out" && fail "station --meets $1 $2 $3: a word on weighing"
    [ -z "${6-}" ] || says "$6"
}
deps=tests/data/rb-deps.rpm
met yes kiln 2.0 "$deps"
met yes kiln 2_00 "$deps"
met yes kiln 10 "$deps"
met no kiln 1.9 "$deps"
met no kiln 2 "$deps"
met yes clay 1.0.2 "$deps"
met no clay 1.0 "$deps"
met no clay 1.1 "$deps"
met no oxide 1.0.rc1 "$deps"
met yes oxide 1.0.1 "$deps"
met yes /bin/sh '' "$deps"
met yes kiln 2.0 - < "$deps"
unmet kil 2.0 "$deps" 25 0 'of a requirement: the package has none for that name'
unmet '' 2.0 "$deps" 25 0
unmet kiln 2.0 "$data/check10_none" 10 168 "record 2 of 4 in the header's index"
unmet kiln 2.0 "$work/rpmbuild" 28 4502
unmet kiln 2.0 - 3 0 < /dev/null
# a book that is refused for its digest alone can be asked
met no 'rpmlib(FileDigests)' 4.6.1 "$work/dose"
trouble usage --compare 1
trouble usage --compare 1 2 3
trouble usage --meets kiln 2.0
trouble usage --meets kiln 2.0 "$deps" more
trouble usage --meets kiln 2.0 --weigh
trouble 'No such file' --meets kiln 2.0 "$data/none"

# an answer that cannot be written
# unwritten ARGUMENT..: ends with 2 on a full disk, a closed output and a closed pipe
unwritten() {
    local got pipe
    cases=$((cases + 3))
    got=0; "$station" "$@" > /dev/full 2> "$work/err" || got=$?
    [ "$got" = 2 ] || fail "station $*: a full disk gives $got"
    got=0; "$station" "$@" >&- 2> "$work/err" || got=$?
    [ "$got" = 2 ] || fail "station $*: a closed output gives $got"
    exec {pipe}> >(true)
    wait $!
    got=0; (trap '' PIPE; "$station" "$@" >&"$pipe" 2> "$work/err") || got=$?
    exec {pipe}>&-
    [ "$got" = 2 ] || fail "station $*: a closed pipe gives $got"
}
unwritten "$data/book_example"
unwritten "$data/check23_sum"
unwritten --refusals
unwritten --compare 1 2
unwritten --meets kiln 2.0 "$deps"

# the tables: docs/REFUSALS.md has the program's; include/station.h has the same numbers
runs 0 --refusals
sed -n '/^<!-- station --refusals -->$/,/^<!-- end -->$/p' docs/REFUSALS.md | sed '1d;$d' | diff - "$work/out" ||
    fail 'docs/REFUSALS.md: not the table of station --refusals'
sed -n 's/^ \*  *\([0-9][0-9]*\)      .*/\1/p' include/station.h > "$work/header"
sed -n 's/^| \([0-9]*\) | .*/\1/p' "$work/out" | diff "$work/header" - || fail 'include/station.h: other numbers'

# include/station.h: its lists are written, and their entries found
sed -n '/^ \*   header  /,/^ \*   header_data  /p' include/station.h | grep -o ' [0-9A-F][0-9A-F]\b' |
    sed 's/ /0x/;s/$/,/' > "$work/lent"
[ "$(wc -l < "$work/lent")" = 40 ] || fail 'include/station.h: not 40 bytes of lists'
cat > "$work/lists.c" << END
#include <string.h>
#include "station.h"

int main(void)
{
    static const uint8_t header[] = {$(head -n 32 "$work/lent")};
    static const uint8_t data[] = {$(tail -n 8 "$work/lent")};
    uint8_t package[STATION_PACKAGE_ROOM];
    uint64_t answer = station_write(data, 3, data, 0, data, 0, header, sizeof header, data, sizeof data, package,
                                    sizeof package);
    size_t length = STATION_PLACE(answer);
    uint64_t name = station_find(package, length, 1, 1000, 6), weight = station_find(package, length, 1, 20002, 4);
    return STATION_NUMBER(answer) != 0 || STATION_NUMBER(name) != 0 || STATION_NUMBER(weight) != 0 ||
           memcmp(package + STATION_PLACE(name), "sky", 4) != 0 ||
           memcmp(package + STATION_PLACE(weight), "\\0\\0\\4\\342", 4) != 0;
}
END
gcc -std=c11 -O2 -Wall -Wextra -Werror -pedantic -Iinclude "$work/lists.c" "$lib" -o "$work/lists"
"$work/lists" || fail 'include/station.h: its lists are not written'

# include/station.h: its digest
sed -n 's/^ \*   digest       \([0-9A-F ]*\)$/\1/p' include/station.h > "$work/stated"
[ "$(cat "$work/stated")" = "$(printf abc | digest_from 0 -)" ] || fail 'include/station.h: not the digest of "abc"'
grep -q '^ \*   bytes        61 62 63$' include/station.h || fail 'include/station.h: not the bytes of "abc"'

# examples/tags.h has the lines of 000's tables, but for the exceptions of documents 01 and 02
awk -F ' *[|] *' '
    /^Table/ { table = substr($1, 9) + 0 }
    $2 ~ /^[0-9]+$/ {
        count = $4 ~ /^[0-9]+$/ ? $4 : "ANY"
        required = $4 == "Required" || $5 == "Required" ? "REQUIRED" : "OPTIONAL"
        if (table <= 7) print 0, $2, $3, $2 ~ /^10(02|05|11|12)$/ ? "ANY" : count, $2 == 100 ? "OPTIONAL" : required, $1
        if (table == 4 || table > 7) print 1, $2, $3, $2 ~ /^(1004|1005|1016|1047|1114)$/ ? "ANY" : count, required, $1
    }' tests/reference/tables.txt | sort > "$work/printed"
awk -F '[{}, "]+' '
    /signature_lines.. =/ { structure = 0 }
    /header_lines.. =/ { structure = 1 }
    $2 ~ /^[0-9]+$/ && $6 ~ /TAG_/ { print structure, $2, $3, $4, $5, $6 }' examples/tags.h | sort > "$work/lines"
[ "$(wc -l < "$work/lines")" = 80 ] || fail 'examples/tags.h: not 80 lines'
diff "$work/printed" "$work/lines" || fail 'examples/tags.h: not the printed tables'

# README.md has what the program says of its example
runs 0 tests/data/house-one-region.rpm
while IFS= read -r line; do
    grep -qxF "    $line" README.md || fail "README.md: no '$line'"
done < "$work/out"

# docs/REFUSALS.md: what its program prints
sed -n '/^```c$/,/^```$/p' docs/REFUSALS.md | sed '/^```/d' > "$work/write.c"
sed -n '/^```text$/,/^```$/p' docs/REFUSALS.md | sed '/^```/d' > "$work/printed"
gcc -std=c11 -O2 -Wall -Wextra -Werror -pedantic -Iinclude "$work/write.c" "$lib" -o "$work/write"
"$work/write" | diff "$work/printed" - || fail 'docs/REFUSALS.md: not what its program prints'

# the examples of docs/REFUSALS.md
if [ -n "$python" ]; then
    sed -n '/^```console$/,/^```$/p' docs/REFUSALS.md | sed '/^```/d' > "$work/examples"
    sed -n 's/^\$ //p' "$work/examples" | while read -r line; do
        printf '$ %s\n' "$line"
        bash -c "$line" < /dev/null || true
    done > "$work/out"
    diff "$work/examples" "$work/out" || fail 'docs/REFUSALS.md: an example is not what the program says'
fi

echo "tests: host: $cases cases right"
