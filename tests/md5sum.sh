#!/bin/sh
# The digests of the library, the reference and the comparison's makers against md5sum and
# Python's hashlib. Run from the repository's root, after tests/run.sh has built
# target/host/compare.
#
#     tests/md5sum.sh [COUNT [SEED]]
#
# Messages of every length from 0 to 300, around block boundaries and large ones go through
# md5sum (coreutils) and hashlib; COUNT more, random ones of up to 1,000 bytes, through hashlib.
# Without Python 3 md5sum alone is asked.
set -eu

out=target/host/messages
count=${1:-1000000}
compare=$PWD/target/host/compare

rm -rf "$out" "$out".*
mkdir -p "$out"
"$compare" messages "$out"
messages=$(find "$out" -type f | wc -l)
[ "$messages" -ge 1000 ] || { echo "md5sum: too few messages" >&2; exit 1; }
(cd "$out" && md5sum -- *) > "$out.md5sum"
for by in library reference makers; do
    (cd "$out" && "$compare" digests $by *) > "$out.$by"
    cmp "$out.$by" "$out.md5sum"
done
echo "md5sum: $messages messages: library, reference and makers say what md5sum says"

command -v python3 > /dev/null || exit 0
(cd "$out" && python3 -c '
import hashlib, sys
for name in sys.argv[1:]:
    print(hashlib.md5(open(name, "rb").read()).hexdigest() + "  " + name)
' *) > "$out.hashlib"
cmp "$out.hashlib" "$out.md5sum"
"$compare" messages "$out.many" "$count" "${2:-1}"
python3 - "$out.many" "$count" << 'END'
import hashlib
import sys

bits = open(sys.argv[1], 'rb').read()
at, seen = 0, 0
while at < len(bits):
    end = at + 4 + int.from_bytes(bits[at:at + 4], 'big')
    message = bits[at + 4:end]
    right = hashlib.md5(message).digest()
    if bits[end:end + 32] != right + right:
        sys.exit(f'md5sum: hashlib says {right.hex()}, library and reference {bits[end:end + 32].hex()} of {message.hex()}')
    at, seen = end + 32, seen + 1
if seen != int(sys.argv[2]):
    sys.exit(f'md5sum: {seen} messages')
print(f'md5sum: {seen} random messages: library and reference say what hashlib says')
END
rm "$out.many"
