#!/bin/sh
# What tools/make_package.py makes is read as it should be, by the reference and the
# library, and by rpm where it is installed. Run from the repository's root, after
# tests/run.sh has built target/host/compare. Needs Python 3.
set -eu

out=target/host/made
mkdir -p "$out"
command -v rpm > /dev/null || echo "make_package: no rpm here"

# reads FILE EDITION ANSWER
reads() {
    right=$(printf 'reference %s\nlibrary   %s' "$3" "$3")
    said=$(target/host/compare read "$out/$1" "$2" 7020)
    [ "$said" = "$right" ] || {
        printf 'make_package: %s at edition %s:\n%s\nexpected:\n%s\n' "$1" "$2" "$said" "$right" >&2
        exit 1
    }
}

# each FILE ANSWER-1 ANSWER-2 ANSWER-3 OPTION...: a package for the station alone, at each edition
each() {
    file=$1 one=$2 two=$3 three=$4
    shift 4
    python3 tools/make_package.py "$@" "$out/$file" > /dev/null
    reads "$file" 1 "$one"
    reads "$file" 2 "$two"
    reads "$file" 3 "$three"
}

# ours FILE ANSWER-1 ANSWER-2 OPTION...: the same where edition 3 answers as edition 2 does
ours() {
    file=$1 one=$2 two=$3
    shift 3
    each "$file" "$one" "$two" "$two" "$@"
}

# make FILE ANSWER-1 ANSWER-2 OPTION...: one that rpm reads too
make() {
    ours "$@"
    by_rpm "$1"
}

# lot FILE PLACE ANSWER-3 OPTION...: a book with a lot there, which editions 1 and 2 do not know
lot() {
    file=$1 place=$2 three=$3
    shift 3
    each "$file" "20 at $place: " "20 at $place: " "$three" "$@"
    by_rpm "$file"
}

# by_rpm FILE
by_rpm() {
    file=$1
    if command -v rpm > /dev/null; then
        rpm -K --nosignature "$out/$file" > "$out/rpm" || { cat "$out/rpm"; exit 1; }
        [ -n "$(rpm -qp --qf '%{name}' "$out/$file")" ]
    fi
}

# refused_by_rpm FILE
refused_by_rpm() {
    if command -v rpm > /dev/null && rpm -K --nosignature "$out/$1" > "$out/rpm" 2>&1; then
        echo "make_package: rpm accepts $1" >&2
        exit 1
    fi
}

make example.rpm "0 at 1: 27 1250 0" "0 at 1: 27 1250 0" --book "02 0007 86 001B 000004E2"
make blank.rpm "0 at 0: " "0 at 0: " --book 00 --weight 0
make two.rpm "0 at 2: 1 100 0 2 200 0" "0 at 2: 1 100 0 2 200 0" \
    --book "86 0001 00000064" --book "86 0002 000000C8" --name two --version 2.0 --release 3 \
    --file /srv/b/two --file /srv/a/two --file /srv/a/one --require kiln --require "glass >= 1.2" \
    --entry "1011:string:A shop" --entry 30000:int16:1,2,0x3 --entry 30001:strings:a,b,c \
    --entry 30002:bin:CAFE --signature-entry 1002:bin:0102
make newer.rpm "20 at 5: " "0 at 1: 27 1250 0" --book "14 00000001" --book "98 001B 000004E2 0005"
make weight.rpm "0 at 1: 27 1250 0" "23 at 20002: " --book "86 001B 000004E2" --weight 1251
make no_weight.rpm "0 at 0: " "14 at 20002: " --book 00 --weight none
make system.rpm "18 at 1021: " "18 at 1021: " --book 00 --entry 1021:string:hurd
make flags.rpm "14 at 1126: " "14 at 1126: " --book 00 --without 1126 --entry 1021:string:hurd
make kind.rpm "20 at 0: " "20 at 0: " --book 96 --weight 0
make dose.rpm "0 at 2: 27 1250 0 999 5000000 0" "0 at 2: 27 1250 0 999 5000000 0" --dose 27:1250 --dose 999:5000000
make page.rpm "0 at 1: 27 1250 0" "0 at 1: 27 1250 0" --book "02 0007" --dose 27:1250
cmp "$out/page.rpm" "$out/example.rpm"
make locales.rpm "0 at 1: 27 1250 0" "0 at 1: 27 1250 0" --dose 27:1250 --entry 100:strings:C,de,pt_BR \
    --entry 1004:i18ns:Glazes,Glasuren,Esmaltes --entry 1005:i18ns:One,Eins --entry 1016:i18n:Books,etc
if command -v rpm > /dev/null; then
    said=$(LC_ALL=C.UTF-8 LANGUAGE=de rpm -qp --qf '%{summary} %{description} %{group}' "$out/locales.rpm")
    [ "$said" = "Glasuren Eins Books,etc" ] || { echo "make_package: rpm reads $said" >&2; exit 1; }
fi
make translations.rpm "17 at 1005: " "17 at 1005: " --dose 27:1250 --entry 1005:i18ns:One,Eins --entry 30000:i18ns:a,b
# The seventh record of the signature
ours signature.rpm "10 at 208: " "10 at 208: " --dose 27:1250 --entry 100:strings:C,de --signature-entry 30000:i18ns:a,b
# A digest that isn't the package's, and one that is too short
ours digest.rpm "27 at 1004: " "27 at 1004: " --dose 27:1250 --signature-entry 1004:bin:000102030405060708090A0B0C0D0E0F
ours digest_15.rpm "15 at 1004: " "15 at 1004: " --dose 27:1250 --signature-entry 1004:bin:000102030405060708090A0B0C0D0E
refused_by_rpm digest.rpm
# Bytes in the gap, which is from 356 to 360: rpm does not look at them
make gap_first.rpm "28 at 356: " "28 at 356: " --dose 27:1250 --gap 5A
make gap_last.rpm "28 at 359: " "28 at 359: " --dose 27:1250 --gap "00 00 00 01"
make gap_two.rpm "28 at 357: " "28 at 357: " --dose 27:1250 --gap "00 5A 41"
make gap_zero.rpm "0 at 1: 27 1250 0" "0 at 1: 27 1250 0" --book "02 0007" --dose 27:1250 --gap "00 00 00 00"
cmp "$out/gap_zero.rpm" "$out/example.rpm"
make gap_none.rpm "0 at 1: 27 1250 0" "0 at 1: 27 1250 0" --dose 27:1250 --signature-entry 30000:bin:01020304
ours gap_system.rpm "28 at 356: " "28 at 356: " --dose 27:1250 --gap 01 --entry 1021:string:hurd
# turned FILE PART PLACE: example.rpm with one bit turned over at a place of a part in hex; neither accepts it
turned() {
    python3 -c '
import sys
source, out, part, place = sys.argv[1:]
bits = bytearray(open(source, "rb").read())
bits[bits.index(bytes.fromhex(part)) + int(place)] ^= 1
open(out, "wb").write(bits)
' "$out/example.rpm" "$out/$1" "$2" "$3"
    for edition in 1 2 3; do
        reads "$1" "$edition" "27 at 1004: "
    done
    refused_by_rpm "$1"
}
turned dose_bit.rpm 86001B000004E2 2
turned payload_bit.rpm 1F8B 20
lot lot.rpm 0 "0 at 1: 27 1250 70315" --book "AA 001B 000004E2 000112AB" --weight 1250
lot lot_0.rpm 3 "0 at 1: 27 1250 0" --book "02 0007 AA 001B 000004E2 00000000" --weight 1250
lot lot_most.rpm 7 "0 at 3: 1 100 0 999 5000000 4294967295 1 100 0" \
    --dose 1:100 --book "AA 03E7 004C4B40 FFFFFFFF" --dose 1:100 --weight 5000200
lot lot_weight.rpm 0 "23 at 20002: " --book "AA 001B 000004E2 000112AB" --weight 71565
lot lot_cut.rpm 0 "21 at 0: " --book "AA 001B 000004E2 000112" --weight 1250
each lot_no_weight.rpm "20 at 0: " "14 at 20002: " "14 at 20002: " --book "AA 001B 000004E2 000112AB" --weight none
lot lot_option.rpm 0 "0 at 1: 27 1250 70315" --lot 27:1250:70315
cmp "$out/lot_option.rpm" "$out/lot.rpm"
lot lots.rpm 7 "0 at 3: 1 100 0 27 1250 0 27 1 4294967295" --dose 1:100 --lot 27:1250:0 --lot 27:1:4294967295
make kind_ba.rpm "20 at 0: " "20 at 0: " --book "BA 001B 000004E2 000112AB" --weight 0
make dose_first.rpm "20 at 7: " "0 at 2: 1 100 0 27 1250 0" --dose 1:100 --book "98 001B 000004E2 0005"
# rpm takes a tag of 2^32 - 1 for -1
ours largest.rpm "0 at 0: " "23 at 20002: " --book 00 --weight 4294967295 --entry 4294967295:int16:65535 \
    --entry 30000:int8:255 --entry 30001:char:0,255 --entry 30002:int32:0xFFFFFFFF
python3 tools/make_package.py --book "86 FFFF FFFFFFFF" --book "86 FFFF FFFFFFFF" --weight 0 "$out/sum.rpm" > "$out/said"
reads sum.rpm 2 "22 at 0: "
reads sum.rpm 3 "22 at 0: "
if grep -q 'accept\|refuse' "$out/said"; then
    echo "make_package: says how a package is read" >&2
    exit 1
fi

# stops WORDS OPTION...: a message with the words, no traceback, no file
stops() {
    words=$1
    shift
    rm -f "$out/none.rpm"
    if python3 tools/make_package.py "$@" "$out/none.rpm" > "$out/said" 2> "$out/message"; then
        echo "make_package: $* is taken" >&2
        exit 1
    fi
    if ! grep -qF -e "$words" "$out/message" || grep -q Traceback "$out/message" ||
        [ -s "$out/said" ] || [ -e "$out/none.rpm" ]; then
        printf 'make_package: %s:\n' "$*" >&2
        cat "$out/message" >&2
        exit 1
    fi
}

stops "no book" --name book
stops "two whole numbers" --dose 27
stops "two whole numbers" --dose 27:1,250
stops "two whole numbers" --dose 27:1.25
stops "two whole numbers" --dose 27:-5
stops "two whole numbers" --dose 27:1250:5
stops "three whole numbers" --lot 27:1250
stops "three whole numbers" --lot 27:1250:-5
stops "three whole numbers" --lot 27:1250:0x5
stops "three whole numbers" --lot 27:1250:5:5
stops "oxide 0 is not" --dose 0:5
stops "oxide 1000 is not" --dose 1000:5
stops "0 milligrams are not" --dose 27:0
stops "5000001 milligrams are not" --dose 27:5000001
stops "oxide 1000 is not" --lot 1000:5:1
stops "5000001 milligrams are not" --lot 27:5000001:1
stops "lot 4294967296 is not" --lot 27:1250:4294967296
stops "--book" --book 1G
stops "give --weight" --book 96
stops "give --weight" --book "86 00"
stops "give --weight" --book "86 FFFF FFFFFFFF" --book "86 FFFF FFFFFFFF"
stops "4294967296 does not fit 32 bits" --book 00 --weight 4294967296
stops "-1 does not fit 32 bits" --book 00 --weight=-1
stops "65536 does not fit 16 bits" --book 00 --entry 30000:int16:1,65536
stops "256 does not fit 8 bits" --book 00 --entry 30000:int8:256
stops "-1 does not fit 8 bits" --book 00 --entry 30000:char:-1
stops "4294967296 does not fit 32 bits" --book 00 --entry 30000:int32:4294967296
stops "4294967296 does not fit 32 bits" --book 00 --entry 4294967296:bin:00
stops "4294967296 does not fit 32 bits" --book 00 --signature-entry 4294967296:bin:00
stops "int64 is none of the types" --book 00 --entry 30000:int64:1
stops "--entry" --book 00 --entry 30000
stops "--entry" --book 00 --entry 30000:int32:
stops "--without" --book 00 --without name
stops "--gap" --book 00 --gap 0
stops "--gap" --book 00 --gap 0G
stops "has 4 bytes: --gap gives 5" --book 00 --gap "00 00 00 00 00"
stops "has 0 bytes: --gap gives 1" --book 00 --signature-entry 30000:bin:01020304 --gap 00

# unwritten MESSAGE FILE: a file that can't be written
unwritten() {
    if python3 tools/make_package.py --book 00 "$2" > "$out/said" 2> "$out/message"; then
        echo "make_package: $2 is written" >&2
        exit 1
    fi
    [ "$(cat "$out/message")" = "make_package: $2: $1" ] || { cat "$out/message" >&2; exit 1; }
}

unwritten "Is a directory" "$out"
unwritten "No such file or directory" "$out/no/where"
unwritten "Not a directory" "$out/example.rpm/file"
unwritten "No space left on device" /dev/full
echo "make_package: all right"
