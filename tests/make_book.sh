#!/bin/bash
# Tests examples/make_book.c as a shop's operator would: run from the repository's root, after `tests/build.sh station`.
# STATION_LIB names another library to test. What it makes is read by examples/station.c, and by rpm where it is installed.
set -euo pipefail

lib=${STATION_LIB:-target/staticlib/libstation.a}
[ -f "$lib" ] || { echo "tests: no $lib (tests/build.sh station makes it)" >&2; exit 1; }
work=$(mktemp -d)
trap 'rm -r "$work"' EXIT
make_book=$PWD/target/make_book
station=$work/station
shop=$work/shop
page=$PWD/README.md
cases=0
mkdir -p target "$shop"
cc="gcc -std=c11 -O2 -Wall -Wextra -Werror -pedantic -Iinclude"
$cc examples/make_book.c "$lib" -o "$make_book"
$cc examples/station.c "$lib" -o "$station"

# fail WHAT: ends the tests
fail() {
    echo "tests: make_book: $1" >&2
    exit 1
}

# files: all files of the shop, with their contents
files() {
    (cd "$shop" && find . -mindepth 1 -printf '%p %y %l\n' && find . -type f -exec cksum {} +) | sort
}

# runs STATUS ARGUMENT..: the program, in the shop, which is to end so; its output is left in $work/out and $work/err
runs() {
    local want=$1 got=0
    shift
    cases=$((cases + 1))
    (cd "$shop" && exec "$make_book" "$@") > "$work/out" 2> "$work/err" || got=$?
    [ "$got" = "$want" ] || { cat "$work/err"; fail "make_book $*: ended with $got"; }
}

# makes FILE SAID ARGUMENT..: the whole output; the file is there and no other is new
makes() {
    local file=$1 said=$2 before after
    shift 2
    before=$(cd "$shop" && find . -mindepth 1 ! -path "./$file" | sort)
    runs 0 "$@"
    [ "$(cat "$work/out")" = "made $file: $said" ] || { cat "$work/out"; fail "make_book $*: not 'made $file: $said'"; }
    [ ! -s "$work/err" ] || { cat "$work/err"; fail "make_book $*: a message"; }
    [ -f "$shop/$file" ] || fail "make_book $*: no $file"
    after=$(cd "$shop" && find . -mindepth 1 ! -path "./$file" | sort)
    [ "$before" = "$after" ] || fail "make_book $*: other files: $after"
}

# stops STATUS MESSAGE ARGUMENT..: the whole message, but for its last line; the shop's files stay as they were
stops() {
    local want=$1 message=$2 before
    shift 2
    before=$(files)
    runs "$want" "$@"
    printf 'make_book: %s\nmake_book: no package was made\n' "$message" | diff - "$work/err" || fail "make_book $*: the message"
    [ ! -s "$work/out" ] || fail "make_book $*: an output"
    [ "$before" = "$(files)" ] || fail "make_book $*: files changed: $(ls -A "$shop")"
}

# states FILE DOSE..: the station reads these doses, each OXIDE:MILLIGRAMS or OXIDE:MILLIGRAMS:LOT, at every edition that can;
# and the digest, at 148, is that of the bytes from the header on, at 168
states() {
    local file=$1 dose digest editions='1 2 3' edition parts
    shift
    for dose in "$@"; do
        IFS=: read -ra parts <<< "$dose"
        [ ${#parts[@]} = 2 ] || editions=3
        printf 'oxide %3d  %7d mg  lot %d\n' "${parts[0]}" "${parts[1]}" "${parts[2]-0}"
    done > "$work/doses"
    "$station" "$shop/$file" | sed '1d;$d' | diff "$work/doses" - || fail "$file: not its doses"
    for edition in 1 2 3; do
        { "$station" --edition $edition "$shop/$file" || true; } | sed '1d;$d' > "$work/read"
        case " $editions " in
            *" $edition "*) diff "$work/doses" "$work/read" || fail "$file: edition $edition" ;;
            *) grep -q '^Means:  a weighed record of a kind that' "$work/read" || fail "$file: accepted at edition $edition" ;;
        esac
    done
    digest=$(od -An -v -tx1 -j 148 -N 16 "$shop/$file" | tr -d ' \n')
    [ "$digest" = "$(tail -c +169 "$shop/$file" | md5sum | cut -c 1-32)" ] || fail "$file: not its digest"
}

# right packages: from a file, from standard input, under another name
printf '# sky blue\n27 1250\n14  800   # copper\n' > "$shop/sky.txt"
makes sky-1.rpm '2 doses, 2050 mg' sky 1 sky.txt
states sky-1.rpm 27:1250 14:800
makes sky-2.0.rpm '2 doses, 2050 mg' sky 2.0 < "$shop/sky.txt"
states sky-2.0.rpm 27:1250 14:800
mkdir "$shop/books"
makes books/blue.rpm '2 doses, 2050 mg' -o books/blue.rpm sky 1 - < "$shop/sky.txt"
cmp "$shop/sky-1.rpm" "$shop/books/blue.rpm" || fail 'the same lines make another package'
title='accepted at edition 3: "sky", version "2.0", release "1"'
[ "$("$station" "$shop/sky-2.0.rpm" | head -n 1)" = "$title" ] || fail 'the title'
makes one-1.rpm '1 dose, 1 mg' one 1 < <(echo '1 1')
states one-1.rpm 1:1

# the order of lines stays, an oxide may come again, the limits are in
makes order-1.rpm '4 doses, 5000007 mg' order 1 < <(printf '%s\n' '999 5000000' '1 1' '27 5' '1 1')
states order-1.rpm 999:5000000 1:1 27:5 1:1
# blanks, remarks, empty lines, lines ended as by Windows, leading zeros, a last line that is not ended
printf '\n \t\n#\n  # 9 9\n 27\t1 \n\t27   2\t# 9 9\n27 3\r\n\r\n027 0000000004\n27 5' > "$shop/blank.txt"
makes blank-1.rpm '5 doses, 15 mg' blank 1 blank.txt
states blank-1.rpm 27:1 27:2 27:3 27:4 27:5
makes long-1.rpm '1 dose, 1 mg' long 1 < <(printf '27 %0252d\n' 1)
# a whole book
makes full-1.rpm '585 doses, 2925000000 mg' full 1 < <(yes '27 5000000' | head -n 585)
full=()
for _ in $(seq 585); do full+=(27:5000000); done
states full-1.rpm "${full[@]}"
# lots: a third number is one, be it 0, the largest, or with leading zeros; lines with and without may be mixed
makes lot-1.rpm '1 dose, 1 with a lot, 1250 mg' lot 1 < <(echo '27 1250 70315')
states lot-1.rpm 27:1250:70315
makes lot-2.rpm '1 dose, 1 with a lot, 1250 mg' lot 2 < <(echo '27 1250 0')
states lot-2.rpm 27:1250:0
makes lot-3.rpm '1 dose, 1 with a lot, 5000000 mg' lot 3 < <(echo '999 5000000 4294967295')
states lot-3.rpm 999:5000000:4294967295
makes lot-4.rpm '4 doses, 2 with a lot, 2053 mg' lot 4 < <(printf '27 1250 1\n14 800\n1\t1\t002 # 3\n27 2 # 4\n')
states lot-4.rpm 27:1250:1 14:800 1:1:2 27:2
# a blank is no thousands mark, as README.md warns
makes lot-5.rpm '1 dose, 1 with a lot, 1 mg' lot 5 < <(echo '27 1 250')
states lot-5.rpm 27:1:250
# holds FILE HEX: the package has these bytes
holds() {
    od -An -v -tx1 "$shop/$1" | tr -d ' \n' | grep -q "$2" || fail "$1: not its records"
}
holds lot-1.rpm 'aa001b000004e2000112ab'
holds lot-2.rpm 'aa001b000004e200000000'
holds lot-3.rpm 'aa03e7004c4b40ffffffff'
holds lot-4.rpm 'aa001b000004e20000000186000e00000320aa0001000000010000000286001b00000002'
# repeated COUNT LINE: the line so often
repeated() { yes "$2" | head -n "$1" || true; }
# a whole book of lots; books that doses with lots and without fill to the last byte
makes lots-1.rpm '372 doses, 372 with a lot, 1860000000 mg' lots 1 < <(repeated 372 '27 5000000 4294967295')
full=()
for _ in $(seq 372); do full+=(27:5000000:4294967295); done
states lots-1.rpm "${full[@]}"
makes lots-2.rpm '376 doses, 366 with a lot, 376 mg' lots 2 < <(repeated 366 '27 1 5'; repeated 10 '27 1')
makes lots-3.rpm '584 doses, 2 with a lot, 584 mg' lots 3 < <(repeated 582 '27 1'; repeated 2 '27 1 5')
# names that rpm takes too
long=$(printf '%060d' 0)
makes Sky_blue-2+b.c-1_0.a+2.rpm '2 doses, 2050 mg' Sky_blue-2+b.c 1_0.a+2 sky.txt
makes "$long-12.rpm" '2 doses, 2050 mg' "$long" 12 sky.txt
states "$long-12.rpm" 27:1250 14:800

# wrong lines: file, number and what is wrong
# wrong LINE MESSAGE: as the third line of a file, and of standard input
wrong() {
    printf "27 1250\n\n$1\n14 800\n" > "$shop/wrong.txt"
    stops 1 "wrong.txt:3: $2" wrong 1 wrong.txt
    stops 1 "standard input:3: $2" wrong 1 < "$shop/wrong.txt"
    rm "$shop/wrong.txt"
}
wrong '27 1,250' 'milligrams "1,250" has a comma: write digits alone'
wrong '27 1.25' 'milligrams "1.25" has a point: write digits alone'
wrong '27 +1250' 'milligrams "+1250" has a sign: write digits alone'
wrong '-27 1250' 'oxide "-27" has a sign: write digits alone'
wrong '27,1250' 'oxide "27,1250" has a comma: write digits alone'
wrong '27:1250' 'oxide "27:1250" is not a whole number: write digits alone'
wrong 'cobalt 1250' 'oxide "cobalt" is not a whole number: write digits alone'
wrong '27 1250mg' 'milligrams "1250mg" is not a whole number: write digits alone'
wrong '27 0x10' 'milligrams "0x10" is not a whole number: write digits alone'
wrong '27 1e3' 'milligrams "1e3" is not a whole number: write digits alone'
wrong '27 1250#2' 'milligrams "1250#2" is not a whole number: write digits alone'
wrong '\xef\xbb\xbf27 1250' 'oxide "\xEF\xBB\xBF27" is not a whole number: write digits alone'
wrong '27\0001 1250' 'oxide "27\x001" is not a whole number: write digits alone'
wrong '27 "\\\033[31m' 'milligrams "\x22\x5C\x1B[31m" is not a whole number: write digits alone'
wrong '27 1250\r1' 'milligrams "1250\x0D1" is not a whole number: write digits alone'
wrong '27' 'no milligrams behind oxide 27'
wrong '27 # 1250' 'no milligrams behind oxide 27'
wrong '27 1250 mg' 'lot "mg" is not a whole number: write digits alone'
wrong '27 1250 7,0' 'lot "7,0" has a comma: write digits alone'
wrong '27 1250 7.0' 'lot "7.0" has a point: write digits alone'
wrong '27 1250 -7' 'lot "-7" has a sign: write digits alone'
wrong '27 1250 +7' 'lot "+7" has a sign: write digits alone'
wrong '27 1250 0x7' 'lot "0x7" is not a whole number: write digits alone'
wrong '27 1250 A7' 'lot "A7" is not a whole number: write digits alone'
wrong '27 1250 7#' 'lot "7#" is not a whole number: write digits alone'
wrong '27 1250 4294967296' 'lot "4294967296" is not 0 to 4294967295'
wrong '27 1250 4294967297' 'lot "4294967297" is not 0 to 4294967295'
wrong '27 1250 18446744073709551616' 'lot "18446744073709551616" is not 0 to 4294967295'
wrong '27 1250 99999999999999999999999999' 'lot "99999999999999999999999999" is not 0 to 4294967295'
wrong '27 1250 7 0' '"0" is too much: a line is OXIDE MILLIGRAMS [LOT]'
wrong '27 1250 7 mg' '"mg" is too much: a line is OXIDE MILLIGRAMS [LOT]'
wrong '27 1 250 70315' '"70315" is too much: a line is OXIDE MILLIGRAMS [LOT]'
wrong '27 0 7' 'milligrams "0" is not 1 to 5000000'
wrong '0 1250 7' 'oxide "0" is not 1 to 999'
wrong '0 1250' 'oxide "0" is not 1 to 999'
wrong '1000 1250' 'oxide "1000" is not 1 to 999'
wrong '4294967323 1250' 'oxide "4294967323" is not 1 to 999'
wrong '27 0' 'milligrams "0" is not 1 to 5000000'
wrong '27 5000001' 'milligrams "5000001" is not 1 to 5000000'
wrong '27 4294968546' 'milligrams "4294968546" is not 1 to 5000000'
wrong '27 18446744073709552866' 'milligrams "18446744073709552866" is not 1 to 5000000'

# every wrong line is told of, up to ten, a line that is too long, or a dose too many
behind='make_book: standard input: the lines behind were not read'
stops 1 'standard input:1: no milligrams behind oxide 1
make_book: standard input:3: oxide "a" is not a whole number: write digits alone' wrong 1 < <(printf '1\n2 2\na\n')
ten=$(for i in $(seq 10); do echo "make_book: standard input:$i: no milligrams behind oxide 27"; done)
stops 1 "${ten#make_book: }"$'\n'"$behind" wrong 1 < <(yes 27)
stops 1 'standard input:2: the line is longer than 255 bytes'$'\n'"$behind" wrong 1 < <(printf '1 1\n27 %0253d\n1\n' 1)
stops 1 'standard input:2: the line is longer than 255 bytes'$'\n'"$behind" wrong 1 < <(printf '1 1\n# %0254d\n1\n' 1)
stops 1 'standard input:1: the line is longer than 255 bytes'$'\n'"$behind" wrong 1 < /dev/zero
many='one dose too many: a book has room for 585, or for 372 with lots'
stops 1 "standard input:586: $many"$'\n'"$behind" wrong 1 < <(yes '27 1')
stops 1 "standard input:373: $many"$'\n'"$behind" wrong 1 < <(yes '27 1 0')
stops 1 "standard input:585: $many"$'\n'"$behind" wrong 1 < <(repeated 584 '27 1'; yes '27 1 5')
stops 1 "standard input:377: $many"$'\n'"$behind" wrong 1 < <(repeated 366 '27 1 5'; yes '27 1')
# no doses
stops 1 'standard input: no doses' none 1 < /dev/null
stops 1 'standard input: no doses' none 1 < <(printf '# 27 1250\n\n')

# names and versions
name='the name is not letters, digits and . _ + - behind a letter or digit'
version='the version is not letters, digits and . _ + behind a letter or digit'
# misnamed MESSAGE NAME VERSION
misnamed() {
    local before
    before=$(files)
    runs 1 -f "$2" "$3" sky.txt
    [ "$(cat "$work/err")" = "make_book: $1" ] || { cat "$work/err"; fail "make_book $2 $3: the message"; }
    [ ! -s "$work/out" ] && [ "$before" = "$(files)" ] || fail "make_book $2 $3: a file or an output"
}
misnamed "$name" '' 1
misnamed "$name" a/b 1
misnamed "$name" .sky 1
misnamed "$name" 'sky blue' 1
misnamed "$name" $'sky\n' 1
misnamed "$name" 'bläu' 1
misnamed "$version" sky ''
misnamed "$version" sky 1-1
misnamed "$version" sky ../1
misnamed "$version" sky '1 '
misnamed 'NAME-VERSION-1 has over 65 bytes' "$long" 123
misnamed 'NAME-VERSION-1 has over 65 bytes' "$(printf '%070000d' 0)" 1

# a file that is there already
printf '1 1\n' > "$shop/one.txt"
stops 2 'sky-1.rpm: is there already; -f replaces it' sky 1 one.txt
stops 2 'sky-1.rpm: is there already; -f replaces it' -o sky-1.rpm other 2 one.txt
stops 1 'standard input: no doses' -f sky 1 < /dev/null
makes sky-1.rpm '1 dose, 1 mg' -f sky 1 one.txt
states sky-1.rpm 1:1
makes sky-1.rpm '2 doses, 2050 mg' -f sky 1 sky.txt
cmp "$shop/sky-1.rpm" "$shop/books/blue.rpm" || fail '-f: another package'
stops 2 'books: is there already and is no ordinary file' -f -o books sky 1 sky.txt
stops 2 'books/: is there already and is no ordinary file' -o books/ sky 1 sky.txt
ln -s sky-1.rpm "$shop/link.rpm"
stops 2 'link.rpm: is there already and is no ordinary file' -f -o link.rpm sky 1 one.txt
mkfifo "$shop/pipe"
stops 2 'pipe: is there already and is no ordinary file' -f -o pipe sky 1 one.txt
# one that comes while the lines are read
runs 2 -o late.rpm sky 1 < <(sleep 0.3; echo other > "$shop/late.rpm"; echo '1 1')
grep -qx 'make_book: late.rpm: is there already; -f replaces it' "$work/err" || fail 'late.rpm: the message'
[ "$(cat "$shop"/late.rpm*)" = other ] || fail 'late.rpm: replaced'

# files that cannot be read or written
stops 2 'none.txt: No such file or directory' new 1 none.txt
stops 2 'books: Is a directory' new 1 books
stops 2 'standard input: Is a directory' new 1 < "$shop/books"
stops 2 'standard input: Bad file descriptor' new 1 <&-
stops 2 'no/where.rpm: No such file or directory' -o no/where.rpm new 1 sky.txt
stops 2 'sky.txt/new.rpm: Not a directory' -o sky.txt/new.rpm new 1 sky.txt
stops 2 '/proc/new.rpm: No such file or directory' -o /proc/new.rpm new 1 sky.txt
stops 2 "$(printf '%0256d' 0): File name too long" -o "$(printf '%0256d' 0)" new 1 sky.txt
before=$(files) got=0
said=$(cd "$shop" && ulimit -f 0 && "$make_book" new 1 sky.txt 2>&1) || got=$?
[ "$got" = 2 ] || fail "a file over the limit gives $got"
[ "$said" = $'make_book: new-1.rpm: File too large\nmake_book: no package was made' ] || fail "a file over the limit: $said"
[ "$before" = "$(files)" ] || fail 'a file over the limit stays'
if [ "$(id -u)" != 0 ]; then
    chmod a-w "$shop/books"
    stops 2 'books/new.rpm: Permission denied' -o books/new.rpm new 1 sky.txt
    chmod u+w "$shop/books"
fi

# arguments
# unused ARGUMENT..: the usage
unused() {
    local before
    before=$(files)
    runs 2 "$@"
    grep -q '^usage: make_book ' "$work/err" || fail "make_book $*: no usage"
    [ ! -s "$work/out" ] && [ "$before" = "$(files)" ] || fail "make_book $*: a file or an output"
}
unused
unused sky
unused sky 1 sky.txt more
unused -x sky 1 sky.txt
unused -o
unused -o '' sky 1 sky.txt

# an answer that cannot be written: the package is made all the same
# unheard WHAT: the program's end and message, then the package
unheard() {
    cases=$((cases + 1))
    [ "$got" = 2 ] || fail "$1 gives $got"
    [ "$(cat "$work/err")" = 'make_book: sky-1.rpm is made; that could not be written' ] || fail "$1: the message"
    cmp "$shop/sky-1.rpm" "$shop/books/blue.rpm" || fail "$1: no package"
    rm "$shop/sky-1.rpm"
}
rm "$shop/sky-1.rpm"
got=0; (cd "$shop" && "$make_book" sky 1 sky.txt) > /dev/full 2> "$work/err" || got=$?
unheard 'a full disk'
got=0; (cd "$shop" && "$make_book" sky 1 sky.txt) >&- 2> "$work/err" || got=$?
unheard 'a closed output'

# what the library refuses, or reads otherwise, is not made: a library that answers as it is told
cat > "$work/told.c" << 'END'
#include <stdlib.h>
#include <string.h>
#include "station.h"

/* $WRITES and $READS are NUMBER:PLACE; the dose is oxide 27, 1250 mg, lot 258. */
static uint64_t told(const char *name)
{
    char *rest;
    uint64_t number = strtoull(getenv(name), &rest, 10);
    return number << 32 | strtoull(rest + 1, NULL, 10);
}

uint64_t station_write(const uint8_t *a, size_t al, const uint8_t *b, size_t bl, const uint8_t *c, size_t cl,
                       const uint8_t *d, size_t dl, const uint8_t *e, size_t el, uint8_t *package, size_t package_len)
{
    memset(package, 0, package_len);
    return told("WRITES");
}

uint64_t station_read(uint32_t edition, const uint8_t *package, size_t package_len, uint8_t *doses, size_t doses_len)
{
    memset(doses, 0, doses_len);
    memcpy(doses, "\0\0\0\33\0\0\4\342\0\0\1\2", 12);
    return edition == 3 ? told("READS") : 1ull << 32;
}
END
gcc -O2 -Iinclude examples/make_book.c "$work/told.c" -o "$work/told"
right_program=$make_book make_book=$work/told
# refused CALL NUMBER PLACE: says so, and the words of station --refusals
refused() {
    local before words
    before=$(files)
    runs 1 told 1 < <(echo '27 1250 258')
    words=$("$station" --refusals | sed -n "s/^| $2 | //p")
    words=${words:-a check that this program does not know}
    [ "$(head -n 1 "$work/err")" = "make_book: $1: refused $2 at $3" ] || { cat "$work/err"; fail "$2: the first line"; }
    grep -qxF "Means:  ${words%% |*}." "$work/err" || fail "$2: no meaning"
    [ "$(tail -n 1 "$work/err")" = 'make_book: no package was made' ] || fail "$2: the last line"
    [ ! -s "$work/out" ] && [ "$before" = "$(files)" ] || fail "$2: a file or an output"
}
for number in 32 33 34 35 29 4294967295; do WRITES=$number:172 READS=0:1 refused writing $number 172; done
for number in $(seq 24) 27 28 29 35; do WRITES=0:172 READS=$number:20002 refused 'reading it again' $number 20002; done
others='reading it again: the doses are not those of the lines'
WRITES=0:172 READS=0:0 stops 1 "$others" told 1 < <(echo '27 1250 258')
WRITES=0:172 READS=0:2 stops 1 "$others" told 1 < <(echo '27 1250 258')
WRITES=0:172 READS=0:1 stops 1 "$others" told 1 < <(echo '27 1251 258')
WRITES=0:172 READS=0:1 stops 1 "$others" told 1 < <(echo '26 1250 258')
WRITES=0:172 READS=0:1 stops 1 "$others" told 1 < <(echo '27 1250 259')
WRITES=0:172 READS=0:1 stops 1 "$others" told 1 < <(echo '27 1250')
WRITES=0:172 READS=0:1 stops 1 "$others" told 1 < <(printf '27 1250 258\n27 1250 258\n')
WRITES=0:172 READS=0:1 makes told-1.rpm '1 dose, 1 with a lot, 1250 mg' told 1 < <(echo '27 1250 258')
[ "$(wc -c < "$shop/told-1.rpm")" = 172 ] || fail 'the file is not as long as the package'
rm "$shop/told-1.rpm"
make_book=$right_program

# rpm's view; a package without a region is to rpm one of the old form
if command -v rpm > /dev/null; then
    # rpm_says TEXT FORMAT FILE
    rpm_says() {
        cases=$((cases + 1))
        [ "$(rpm -qp --qf "$2" "$shop/$3" 2> "$work/err")" = "$1" ] || fail "$3: rpm does not read $1"
        ! grep -v '^warning: RPM v3 packages are deprecated: ' "$work/err" || fail "$3: rpm complains"
    }
    format='%{name} %{version} %{release} %{arch} %{os} %{summary}'
    rpm_says 'sky 2.0 1 noarch linux Recipe book' "$format" sky-2.0.rpm
    rpm_says 'Sky_blue-2+b.c 1_0.a+2 1 noarch linux Recipe book' "$format" Sky_blue-2+b.c-1_0.a+2.rpm
    rpm_says "$long 12 1 noarch linux Recipe book" "$format" "$long-12.rpm"
    rpm_says 'full 1 1 noarch linux Recipe book' "$format" full-1.rpm
    rpm_says 'lots 1 1 noarch linux Recipe book' "$format" lots-1.rpm
    rpm_says 'sky-1-1.noarch' '%{nvra}' books/blue.rpm
    rpm_says '/usr/share/books/sky' '[%{filenames}]' sky-2.0.rpm
    rpm_says 'rpmlib(CompressedFileNames)' '[%{requirename}]' sky-2.0.rpm
    [ "$(rpm -qp --provides "$shop/sky-2.0.rpm" 2> /dev/null | sort -u)" = 'sky = 2.0-1' ] || fail 'rpm: not what is provided'
    # the digest is right, and a changed bit of a dose is found
    for file in sky-2.0.rpm one-1.rpm order-1.rpm full-1.rpm lot-4.rpm lots-1.rpm "$long-12.rpm" books/blue.rpm; do
        cases=$((cases + 1))
        [ "$(cd "$shop" && rpm -K --nosignature "$file" 2> /dev/null)" = "$file: digests OK" ] || fail "$file: rpm -K"
    done
    { head -c 1000 "$shop/books/blue.rpm"; printf '\xe3'; tail -c +1002 "$shop/books/blue.rpm"; } > "$work/flipped.rpm"
    ! cmp -s "$shop/books/blue.rpm" "$work/flipped.rpm" || fail 'flipped.rpm: no bit was changed'
    ! rpm -K --nosignature "$work/flipped.rpm" > "$work/out" 2> /dev/null || fail 'flipped.rpm: rpm -K'
    grep -q 'DIGESTS NOT OK' "$work/out" || fail 'flipped.rpm: what rpm -K says'
else
    echo 'tests: make_book: no rpm here'
fi

# README.md: its lines make its package
sed -n '/^    # sky blue$/,/^$/s/^    //p' "$page" > "$shop/read.txt"
[ -s "$shop/read.txt" ] || fail 'README.md: no lines'
sed -n 's|^    target/make_book \(.*\) sky.txt$|\1|p' "$page" > "$work/arguments"
[ "$(wc -l < "$work/arguments")" = 1 ] || fail 'README.md: no command'
said=$(sed -n 's/^    made //p' "$page")
rm -f "$shop/${said%%:*}"
makes "${said%%:*}" "${said#*: }" $(cat "$work/arguments") read.txt
sed 's/ 1250/ 1,250/' "$shop/read.txt" > "$shop/sky.txt"
runs 1 $(sed 's/ 1$/ 2/' "$work/arguments") sky.txt
sed -n 's/^    make_book: /make_book: /p' "$page" | diff - "$work/err" || fail 'README.md: another message'

# README.md and docs/FORMAT.md have what rpm says of its digest
if command -v rpm > /dev/null; then
    for text in README.md docs/FORMAT.md; do
        grep -qF "$(cd "$shop" && rpm -K --nosignature sky-1.rpm 2> /dev/null | sed 's/.*: //')" "$text" || fail "$text: rpm -K"
    done
fi

# docs/FORMAT.md: the bytes of that package
grep -q "\`sky-1.rpm\`, $(wc -c < "$shop/sky-1.rpm") bytes:" docs/FORMAT.md || fail 'docs/FORMAT.md: another length'
sed -n '/^## A package on the station$/,$s/^    \([0-9A-F ]*\) # \([0-9]*\) .*/\2 \1/p' docs/FORMAT.md > "$work/listing"
[ "$(wc -l < "$work/listing")" = 11 ] || fail 'docs/FORMAT.md: not 11 lines of bytes'
while read -r place bytes; do
    bytes=${bytes// /}
    found=$(tail -c "+$((place + 1))" "$shop/sky-1.rpm" | od -An -v -tx1 -N $((${#bytes} / 2)) | tr -d ' \n' | tr a-f A-F)
    [ "$found" = "$bytes" ] || fail "docs/FORMAT.md: at $place stands $found"
done < "$work/listing"

echo "tests: make_book: $cases cases right"
