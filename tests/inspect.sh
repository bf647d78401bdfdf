#!/bin/bash
# Tests the program inspect: run from the repository's root, after `tests/build.sh` made target/bin/inspect and target/bin/digest.
# A line of tests/inspect/cases.txt says what is expected, tests/inspect/NAME.out, its input (- is a closed one) and the arguments.
# INSPECT names another program to test.
set -euo pipefail

inspect=${INSPECT:-target/bin/inspect}
[ -x "$inspect" ] || { echo "tests: no $inspect (tests/build.sh makes it)" >&2; exit 1; }
work=$(mktemp -d)
trap 'rm -r "$work"' EXIT
cases=0 failed=0

# number N: four bytes, big-endian
number() {
    printf '%b' "$(printf '\\x%02x' $(($1 >> 24 & 255)) $(($1 >> 16 & 255)) $(($1 >> 8 & 255)) $(($1 & 255)))"
}

# structure HSIZE TAG TYPE OFFSET COUNT: a structure of one record, without its store
structure() {
    printf '\x8e\xad\xe8\x01\0\0\0\0\0\0\0\1'
    for word in "$@"; do number "$word"; done
}

# made FILE: a package whose header has one entry, 5000 of type 7, the bytes of FILE
made() {
    printf '\xed\xab\xee\xdb\3\0\0\0\0\1'
    head -c 66 /dev/zero
    printf '\0\1\0\5'
    head -c 16 /dev/zero
    structure 4 1000 4 0 1
    printf '\0\0\0\7\0\0\0\0'
    structure "$(wc -c < "$1")" 5000 7 0 "$(wc -c < "$1")"
    cat "$1"
}

# input SPEC: a package of tests/data; samples/NAME is one of crates/samples/data. PACKAGE@PLACE=HEX has these bytes at that
# place; PACKAGE:N is its first N bytes, with zeros behind where it has fewer
input() {
    local package=${1%%[@:]*} puts=${1%%:*} put
    case $package in
        samples/*) cat "crates/samples/data/${package#samples/}" ;;
        *) cat "tests/data/$package" ;;
    esac > "$work/input"
    while [ "$puts" != "$package" ]; do
        put=${puts##*@} puts=${puts%@*}
        printf '%b' "$(sed 's/../\\x&/g' <<< "${put#*=}")" |
            dd of="$work/input" bs=1 seek="${put%=*}" conv=notrunc status=none
    done
    case $1 in
        *:*) head -c 65537 /dev/zero >> "$work/input"; head -c "${1#*:}" "$work/input" ;;
        *) cat "$work/input" ;;
    esac
}

# fail WHAT: a case that failed
fail() {
    failed=$((failed + 1))
    echo "tests: inspect $1: not what is expected" >&2
}

# same WHAT WANT: the file WANT, compared with what was written
same() {
    cases=$((cases + 1))
    cmp -s "$2" "$work/out" || fail "$1"
}

while read -r line; do
    case $line in '' | '#'*) continue ;; esac
    eval "set -- $line"
    want=$1 spec=$2
    shift 2
    if [ "$spec" = - ]; then
        "$inspect" "$@" <&- > "$work/out"
    else
        input "$spec" > "$work/in"
        "$inspect" "$@" < "$work/in" > "$work/out"
    fi
    same "$* < $spec" "tests/inspect/$want.out"
done < tests/inspect/cases.txt

# entries of many sizes in hex, which od spells too
seq 1 20000 > "$work/numbers"
for n in 1 2 2047 2048 2049 4095 4096 4097 6144 60000 65368; do
    head -c "$n" "$work/numbers" > "$work/entry"
    made "$work/entry" > "$work/in"
    { echo "0 168"; od -An -v -tx1 "$work/entry" | tr -d ' \n'; echo; } > "$work/want"
    "$inspect" find 1 5000 7 < "$work/in" > "$work/out"
    same "find 1 5000 7, $n bytes" "$work/want"
done

# one byte too many, an input in pieces, a name that no buffer holds
head -c 65369 "$work/numbers" > "$work/entry"
made "$work/entry" > "$work/in"
"$inspect" find 1 5000 7 < "$work/in" > "$work/out"
same "find 1 5000 7, 65,369 bytes" tests/inspect/too-large.out
head -c 1000000 /dev/zero > "$work/in"
"$inspect" index 1 < "$work/in" > "$work/out"
same "index 1, 1,000,000 bytes" tests/inspect/too-large.out
{ head -c 50 tests/data/rb-one.rpm; sleep 0.2; tail -c +51 tests/data/rb-one.rpm; } | "$inspect" index 1 > "$work/out"
same "index 1, in two pieces" tests/inspect/rb-one-index-1.out
long=$(head -c 100000 /dev/zero | tr '\0' a)
"$inspect" requires "$long" < tests/data/rb-one.rpm > "$work/out"
same "requires NAME, of 100,000 bytes" tests/inspect/empty-line.out
"$inspect" requires "$long" < crates/samples/data/check10_two_strings > "$work/out"
same "requires NAME, of 100,000 bytes, refused" tests/inspect/refused-10-152.out
"$inspect" "$long" < tests/data/rb-one.rpm > "$work/out"
same "a command of 100,000 bytes" tests/inspect/usage.out

# compared LEFT RIGHT WANT: how the texts are said to stand to each other
compared() {
    "$inspect" compare "$1" "$2" <&- > "$work/out"
    same "compare, of ${#1} and ${#2} bytes" "tests/inspect/$3.out"
}

# versions of every byte that only separates, alone and between runs
export LC_ALL=C
for code in $(seq 255); do
    printf -v byte '%b' "$(printf '\\x%02x' "$code")"
    case $byte in [0-9A-Za-z]) continue ;; esac
    compared "$byte" '' same
    compared "1${byte}a" 1a same
    compared "1${byte}0" 1.0 same
    compared "1${byte}0" 10 older
    compared "a$byte" a same
done

# .. as long as the buffer, and longer
zeros=$(head -c 65536 /dev/zero | tr '\0' 0)
nines=${zeros//0/9}
letters=${zeros//0/a}
compared "$zeros" 0 same
compared "$zeros" "$zeros" same
compared "${zeros:1}7" 7 same
compared "${zeros:1}7" 8 older
compared "1${zeros:1}" "${nines:1}" newer
compared "${nines:1}" "1${zeros:1}" older
compared "$nines" "${nines:1}8" newer
compared "$letters" "${letters:1}" newer
compared "${letters:1}" "${letters:1}b" older
compared "${zeros//0/.}" '' same
compared "${zeros//0/.}" 0 older
compared "${zeros}0" 0 too-long
compared 0 "${zeros}0" too-long
compared "$long" "$long" too-long
for arguments in "$long 2.0" "kiln $long" "${letters}a 2.0" "kiln ${zeros}0"; do
    "$inspect" meets $arguments < tests/data/rb-deps.rpm > "$work/out"
    same "meets, of ${#arguments} bytes" tests/inspect/too-long.out
done
"$inspect" meets kiln "${zeros:2}2." < tests/data/rb-deps.rpm > "$work/out"
same 'meets kiln VERSION, of 65,536 bytes' tests/inspect/no.out
"$inspect" meets "$letters" 2.0 < tests/data/rb-deps.rpm > "$work/out"
same 'meets NAME 2.0, of 65,536 bytes' tests/inspect/refused-25.out

# compare reads nothing: the whole input is there behind it
{ "$inspect" compare 1 2; cat; } < tests/data/rb-one.rpm > "$work/out"
cat tests/inspect/older.out tests/data/rb-one.rpm > "$work/want"
same 'compare 1 2, before another reader' "$work/want"

# input that can't be read is no package
for arguments in 'index 0' 'find 1 1000 6' 'element 1 1000 6 0' 'requires x' 'meets x 1'; do
    "$inspect" $arguments < / > "$work/out"
    same "$arguments, of a directory" tests/inspect/unread.out
    "$inspect" $arguments <&- > "$work/out"
    same "$arguments, of a closed input" tests/inspect/unread.out
done
"$inspect" index < / > "$work/out"
same "index, of a directory" tests/inspect/usage.out

# README.md: what the programs write for its examples
sed -n '/^    \$ .*target\/bin\//,/^$/s/^    //p' README.md > "$work/examples"
sed -n 's|^\$ ||p' "$work/examples" > "$work/commands"
[ "$(wc -l < "$work/commands")" = 13 ] || fail 'README.md: not 13 examples'
while IFS= read -r line; do
    printf '$ %s\n' "$line"
    eval "${line//target\/bin\/inspect/\"\$inspect\"}"
done < "$work/commands" > "$work/out"
same 'of README.md' "$work/examples"

# what rpm reads from the packages
while read -r file which tag ty element hex; do
    case $element in
        '') continue ;;
        -) set -- find "$which" "$tag" "$ty" ;;
        *) set -- element "$which" "$tag" "$ty" "$element" ;;
    esac
    { read -r _ && read -r got; } < <("$inspect" "$@" < "tests/data/$file") || got=
    cases=$((cases + 1))
    [ "$got" = "$hex" ] || fail "$* < $file"
done < <(grep -v '^#' tests/data/expected.txt)

# .. and whether a version meets what rpm reads as required: the required text, one that has a run more, one that has none
declare -A required
# bytes HEX: a string of a package, without its zero byte
bytes() {
    printf '%b' "$(sed 's/../\\x&/g' <<< "${1%00}")"
}
# met VERSION FLAG: `yes` where none of the three flags is set, or this one is
met() {
    local want=no
    if ((0x$flags & 0xE)); then ((0x$flags & $2)) && want=yes; else want=yes; fi
    "$inspect" meets "$name" "$1" < "tests/data/$file" > "$work/out"
    same "meets $name $1 < $file" "tests/inspect/$want.out"
}
while read -r file tag element hex; do
    required[$file $tag $element]=$hex
done < <(sed -nE 's/^([^#]\S* )1 (1048 4|1049 8|1050 8) ([0-9]+ )/\1\2 \3/p' tests/data/expected.txt | cut -d ' ' -f 1,2,4,5)
for file in $(cd tests/data && ls *.rpm); do
    names=' '
    for ((k = 0; ; k++)); do
        [ -n "${required[$file 1049 $k]+is}" ] || break
        case $names in *" ${required[$file 1049 $k]} "*) continue ;; esac
        names="$names${required[$file 1049 $k]} "
        name=$(bytes "${required[$file 1049 $k]}") version=$(bytes "${required[$file 1050 $k]}")
        flags=${required[$file 1048 $k]}
        met "$version" 0x08
        met "$version.0" 0x04
        [ -z "$version" ] || met '' 0x02
    done
    [ "$k" != 0 ] || fail "$file: nothing required"
done

echo "tests: inspect: $cases cases, $failed failed"
[ "$failed" = 0 ]
