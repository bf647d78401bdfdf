#!/usr/bin/env python3
"""Writes the .out files for the cases beside this script, all but usage.out, unread.out and too-long.out, from the papers alone.

It shares no code with the program; the tests need only the files.
"""
import itertools
import pathlib
import re
import shlex
import struct

SIZE = {1: 1, 2: 1, 3: 2, 4: 4, 7: 1}
ALIGN = {3: 2, 4: 4}
STRINGS = (6, 8, 9)
HERE = pathlib.Path(__file__).resolve().parent


class Refused(Exception):
    pass


def refuse(number, place):
    raise Refused(number, place)


def lead(p):
    if len(p) > 65536:
        refuse(2, 0)
    if len(p) < 96:
        refuse(3, len(p))
    for at, want in ((0, b'\xed\xab\xee\xdb'), (4, b'\x03'), (5, b'\x00'), (6, b'\x00\x00')):
        if p[at:at + len(want)] != want:
            refuse(4, at)
    if 0 not in p[10:76]:
        refuse(4, 10)
    for at, want in ((76, b'\x00\x01'), (78, b'\x00\x05')):
        if p[at:at + 2] != want:
            refuse(4, at)


def data_end(store, ty, offset, count):
    """Where an entry's data ends in the store, or None where it passes the store's end."""
    if ty not in STRINGS:
        end = offset + SIZE[ty] * count
        return end if end <= len(store) else None
    for _ in range(count):
        zero = store.find(b'\0', offset)
        if zero < 0:
            return None
        offset = zero + 1
    return offset


def structure(p, start, single):
    """The records of a structure, each with its place and its data's place and bytes; and the structure's end.

    The types of `single` have a count of 1.
    """
    if len(p) < start + 16:
        refuse(5, start)
    magic, reserved, nindex, hsize = struct.unpack_from('>4I', p, start)
    if magic != 0x8EADE801:
        refuse(6, start)
    if reserved != 0:
        refuse(6, start + 4)
    if not 1 <= nindex <= 512:
        refuse(7, start + 8)
    at = start + 16 + 16 * nindex
    if at + hsize > len(p):
        refuse(8, start + 12)
    store, records, tags = p[at:at + hsize], [], set()
    for i in range(nindex):
        place = start + 16 + 16 * i
        tag, ty, offset, count = struct.unpack_from('>4I', p, place)
        if ty not in SIZE and ty not in STRINGS:
            refuse(9, place)
        if count == 0 or (ty in single and count != 1):
            refuse(10, place)
        if offset % ALIGN.get(ty, 1):
            refuse(11, place)
        end = data_end(store, ty, offset, count)
        if end is None:
            refuse(12, place)
        if tag in tags:
            refuse(13, place)
        tags.add(tag)
        records.append((place, tag, ty, offset, count, at + offset, store[offset:end]))
    return records, at + hsize


def gap(p, end, start):
    """What there is of the bytes from the signature's end to the header's start."""
    for place, byte in enumerate(p[end:start], end):
        if byte != 0:
            refuse(28, place)


def opened(p):
    lead(p)
    signature, end = structure(p, 96, single=(6, 9))
    start = (end + 7) // 8 * 8
    gap(p, end, start)
    header, _ = structure(p, start, single=(6,))
    return signature, header


def elements(ty, count, data):
    if ty in STRINGS:
        return [part + b'\0' for part in data.split(b'\0')[:count]]
    return [data[i * SIZE[ty]:(i + 1) * SIZE[ty]] for i in range(count)]


def entry(p, which, tag, ty):
    for record in opened(p)[0 if which == 0 else 1]:
        if record[1:3] == (tag, ty):
            return record
    refuse(25, 0)


def required(p, name):
    have = {record[1]: record for record in opened(p)[1] if record[2] == 8}
    if 1049 not in have or 1050 not in have or have[1049][4] != have[1050][4]:
        return b''
    names, versions = (elements(8, have[tag][4], have[tag][6]) for tag in (1049, 1050))
    return versions[names.index(name + b'\0')] if name + b'\0' in names else b''


def order(left, right):
    """How one version text stands to another: its runs against the other's, the first two that differ."""
    runs = (re.findall(rb'[0-9]+|[A-Za-z]+', text) for text in (left, right))
    for a, b in itertools.zip_longest(*runs, fillvalue=b''):
        # a missing run is lowest, then letters by bytes, then digits by value
        a, b = ((0,) if not run else (2, int(run)) if run.isdigit() else (1, run) for run in (a, b))
        if a != b:
            return 'older' if a < b else 'newer'
    return 'same'


def meets(p, name, version):
    header = opened(p)[1]
    have = [[r for r in header if r[1:3] == wanted] for wanted in ((1048, 4), (1049, 8), (1050, 8))]
    if not all(have) or len({r[0][4] for r in have}) != 1:
        refuse(25, 0)
    flags, names, versions = (elements(r[0][2], r[0][4], r[0][6]) for r in have)
    if name + b'\0' not in names:
        refuse(25, 0)
    k = names.index(name + b'\0')
    flagged = int.from_bytes(flags[k], 'big') & 0x0E
    relation = {'older': 0x02, 'newer': 0x04, 'same': 0x08}[order(version, versions[k][:-1])]
    return 'no' if flagged and not flagged & relation else 'yes'


def written(p, args):
    if args[0] == 'requires':
        return required(p, args[1].encode()).hex() + '\n'
    if args[0] == 'meets':
        return meets(p, args[1].encode(), args[2].encode()) + '\n'
    if args[0] == 'compare':
        return order(args[1].encode(), args[2].encode()) + '\n'
    number = [int(a) for a in args[1:]]
    if args[0] == 'index':
        return ''.join('%d %d %d %d %d\n' % r[:5] for r in opened(p)[0 if number[0] == 0 else 1])
    if args[0] == 'find':
        record = entry(p, *number)
        return '0 %d\n%s\n' % (record[5], record[6].hex())
    record = entry(p, *number[:3])
    parts = elements(record[2], record[4], record[6])
    if number[3] >= len(parts):
        refuse(26, 0)
    return '0 %d\n%s\n' % (record[5] + sum(map(len, parts[:number[3]])), parts[number[3]].hex())


def expected(p, args):
    try:
        return written(p, args)
    except Refused as r:
        return 'refused %d at %d\n' % r.args


def package(spec):
    """The bytes of a package that a case names; none for a closed input."""
    if spec == '-':
        return b''
    tests = HERE.parent
    changed, _, size = spec.partition(':')
    file, *puts = changed.split('@')
    if file.startswith('samples/'):
        p = (tests.parent / 'crates/samples/data' / file[len('samples/'):]).read_bytes()
    else:
        p = (tests / 'data' / file).read_bytes()
    for put in puts:
        place, bits = put.split('=')
        place, bits = int(place), bytes.fromhex(bits)
        p = p[:place] + bits + p[place + len(bits):]
    return (p + bytes(65537))[:int(size)] if size else p


def main():
    texts = {}
    for line in (HERE / 'cases.txt').read_text().split('\n'):
        words = shlex.split(line, comments=True)
        if not words or words[0] == 'usage':
            continue
        text = expected(package(words[1]), words[2:])
        assert texts.setdefault(words[0], text) == text, line
    for name, text in texts.items():
        (HERE / (name + '.out')).write_text(text)


main()
