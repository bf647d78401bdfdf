#!/usr/bin/env python3
"""Makes a package with a recipe book. docs/FORMAT.md says what a station accepts.

It does not read what it makes: `target/bin/doses < FILE` does. Unless options change
them, the package has the right size (signature tag 1000) and MD5 digest (1004),
regions and header digests as rpm writes them, and an empty cpio archive compressed
with gzip as payload; its files are ghosts, which have no place in the archive. rpm
4.18.0 reads it: `rpm -qp --qf '%{name}\\n' FILE`, `rpm -K --nosignature FILE`.
"""
import argparse
import gzip
import hashlib
import os
import pathlib
import re
import sys

from rpmfile import BIN, CHAR, I18N, INT16, INT32, INT8, STRING, STRINGS, cpio, in_region, lead, package

EXAMPLES = """examples:
  %(prog)s --dose 27:1250 book.rpm
      1250 mg of oxide 27; the batch weight is 1250
  %(prog)s --book "02 0007 86 001B 000004E2" book.rpm
      page 7, then the same dose
  %(prog)s --book "02 0007" --dose 1:100 --dose 2:200 two.rpm
      page 7, then two doses, 300 mg
  %(prog)s --dose 1:100 --lot 27:1250:70315 lot.rpm
      a dose without a lot and one of lot 70315; edition 3
  %(prog)s --book 00 --name blank --file /srv/blank --require "glass >= 1.2" blank.rpm
  %(prog)s --dose 27:1250 --entry 100:strings:C,de --entry 1004:i18ns:Glazes,Glasuren two_locales.rpm
  %(prog)s --book 00 --weight 5 wrong.rpm
      refused 23 at 20002
  %(prog)s --book 00 --entry 1021:string:hurd --without 1126 wrong.rpm
      refused 14 at 1126
  %(prog)s --dose 27:1250 --signature-entry 1004:bin:00000000000000000000000000000000 wrong.rpm
      refused 27 at 1004
  %(prog)s --dose 27:1250 --gap "00 5A" wrong.rpm
      refused 28 at 357
"""

TYPES = {
    'char': CHAR, 'int8': INT8, 'int16': INT16, 'int32': INT32,
    'string': STRING, 'bin': BIN, 'strings': STRINGS, 'i18n': I18N, 'i18ns': I18N,
}
# How many bits a number of a type has.
BITS = {CHAR: 8, INT8: 8, INT16: 16, INT32: 32}
# Weighed kinds; oxide and milligrams are the first six bytes of their bodies.
DOSE = 0x86
LOT = 0xAA
WEIGHED = (DOSE, 0x98, LOT)
BOOK, BATCH_WEIGHT = 20001, 20002
GHOST = 64
LESS, GREATER, EQUAL, RPMLIB = 2, 4, 8, 1 << 24


def number(text, bits=32):
    found = int(text, 0)
    if not 0 <= found < 1 << bits:
        raise argparse.ArgumentTypeError(f'{text} does not fit {bits} bits')
    return found


def hexadecimal(text):
    return bytes.fromhex(text)


def weighed(oxide, milligrams):
    """What every weighed body begins with."""
    if not 1 <= oxide <= 999:
        raise argparse.ArgumentTypeError(f'oxide {oxide} is not 1 to 999')
    if not 1 <= milligrams <= 5000000:
        raise argparse.ArgumentTypeError(f'{milligrams} milligrams are not 1 to 5000000')
    return oxide.to_bytes(2, 'big') + milligrams.to_bytes(4, 'big')


def dose(text):
    """OXIDE:MILLIGRAMS as a record."""
    parts = re.fullmatch(r'([0-9]+):([0-9]+)', text)
    if not parts:
        raise argparse.ArgumentTypeError(f'{text} is not OXIDE:MILLIGRAMS, two whole numbers')
    return bytes([DOSE]) + weighed(*map(int, parts.groups()))


def lot(text):
    """OXIDE:MILLIGRAMS:LOT as a record."""
    parts = re.fullmatch(r'([0-9]+):([0-9]+):([0-9]+)', text)
    if not parts:
        raise argparse.ArgumentTypeError(f'{text} is not OXIDE:MILLIGRAMS:LOT, three whole numbers')
    oxide, milligrams, stated = map(int, parts.groups())
    if stated >= 1 << 32:
        raise argparse.ArgumentTypeError(f'lot {stated} is not 0 to 4294967295')
    return bytes([LOT]) + weighed(oxide, milligrams) + stated.to_bytes(4, 'big')


def weight(text):
    return None if text == 'none' else number(text)


def text_bytes(text):
    """The bytes of an argument as they were given."""
    return os.fsencode(text)


def entry(text):
    """TAG:TYPE:VALUE as (tag, type, value)."""
    tag, name, value = text.split(':', 2)
    ty = TYPES.get(name)
    if ty == BIN:
        value = bytes.fromhex(value)
    elif name in ('string', 'i18n'):
        value = text_bytes(value)
    elif name in ('strings', 'i18ns'):
        value = [text_bytes(word) for word in value.split(',')]
    elif ty:
        value = [number(word, BITS[ty]) for word in value.split(',')]
    else:
        raise argparse.ArgumentTypeError(f'{name} is none of the types ' + ', '.join(TYPES))
    return number(tag), ty, value


def path(text):
    if not re.fullmatch(r'(/[^/]+)+', text):
        raise ValueError
    return text


def require(text):
    """NAME or NAME OPERATOR VERSION as (name, flags, version)."""
    parts = re.fullmatch(r'([^\s<=>]+)(?:\s*(<=|>=|<|>|=)\s*(\S+))?', text)
    if not parts:
        raise ValueError
    name, operator, version = parts.groups(default='')
    flags = sum(flag for sign, flag in (('<', LESS), ('>', GREATER), ('=', EQUAL)) if sign in operator)
    return text_bytes(name), flags, text_bytes(version)


def arguments():
    parser = argparse.ArgumentParser(
        description=__doc__, epilog=EXAMPLES, formatter_class=argparse.RawDescriptionHelpFormatter)
    parser.add_argument('output', metavar='FILE', type=pathlib.Path, help='the package to write')
    parser.add_argument('--book', metavar='HEX', type=hexadecimal, action='append',
                        help='bytes of the book, spaces allowed; may be repeated')
    parser.add_argument('--dose', metavar='OXIDE:MILLIGRAMS', type=dose, action='append', dest='book',
                        help='a record of the book that is weighed; may be repeated. What --book, --dose and --lot give '
                             'is put in a row, in their order')
    parser.add_argument('--lot', metavar='OXIDE:MILLIGRAMS:LOT', type=lot, action='append', dest='book',
                        help='the same with the lot of the oxide, for edition 3')
    parser.add_argument('--weight', metavar='MILLIGRAMS', type=weight, default=False,
                        help='the batch weight (20002), or "none" to leave it out (default: the sum of the doses)')
    parser.add_argument('--name', default='book', help='the package\'s name (default: %(default)s)')
    parser.add_argument('--version', default='1', help='its version (default: %(default)s)')
    parser.add_argument('--release', default='1', help='its release (default: %(default)s)')
    parser.add_argument('--file', metavar='PATH', type=path, action='append',
                        help='a file that the package lists; may be repeated (default: /usr/share/books/NAME)')
    parser.add_argument('--require', metavar='"NAME [<=>] [VERSION]"', type=require, action='append', default=[],
                        help='a package that this one requires; may be repeated')
    parser.add_argument('--entry', metavar='TAG:TYPE:VALUE', type=entry, action='append', default=[],
                        help='a header entry to add, or to put in the place of the one of that tag. TYPE is one of '
                             + ', '.join(TYPES) + '; numbers, strings and i18ns (a text for each locale of tag 100) '
                             'are separated by commas, bin is hex')
    parser.add_argument('--signature-entry', metavar='TAG:TYPE:VALUE', type=entry, action='append', default=[],
                        help='the same in the signature, where 1000 (size) and 1004 (digest) are right unless given')
    parser.add_argument('--gap', metavar='HEX', type=hexadecimal, default=b'',
                        help='bytes to put into the gap before the header, from its start on, in place of zeros')
    parser.add_argument('--without', metavar='TAG', type=int, action='append', default=[],
                        help='a header tag to leave out')
    options = parser.parse_args()
    if options.book is None:
        parser.error('no book: give --book, --dose or --lot')
    return options


def doses(bits):
    """The book's (oxide, milligrams); None if it has an unknown weighed kind, or ends in a record."""
    found, at = [], 0
    while at < len(bits):
        kind, body = bits[at], bits[at + 1:at + 1 + bits[at] % 16]
        if len(body) < kind % 16 or kind >= 128 and kind not in WEIGHED:
            return None
        if kind in WEIGHED:
            found.append((int.from_bytes(body[:2], 'big'), int.from_bytes(body[2:6], 'big')))
        at += 1 + len(body)
    return found


def header(options, payload):
    """The header's entries by tag: those that are required, and what rpm asks for."""
    files = sorted(options.file or [f'/usr/share/books/{options.name}'])
    split = [file.rpartition('/') for file in files]
    folders = sorted({folder + '/' for folder, _, _ in split})
    requires = sorted(options.require + [
        (b'rpmlib(CompressedFileNames)', RPMLIB | LESS | EQUAL, b'3.0.4-1'),
        (b'rpmlib(PayloadFilesHavePrefix)', RPMLIB | LESS | EQUAL, b'4.0-1'),
    ])
    name, version, release = (text_bytes(text) for text in (options.name, options.version, options.release))
    n = len(files)
    entries = [
        (100, STRINGS, [b'C']),
        (1000, STRING, name), (1001, STRING, version), (1002, STRING, release),
        (1004, I18N, b'Recipe book'), (1005, I18N, b'Doses for the weighing station.'),
        (1009, INT32, [0]), (1014, STRING, b'none'), (1016, I18N, b'Books'),
        (1021, STRING, b'linux'), (1022, STRING, b'noarch'),
        (1028, INT32, [0] * n), (1030, INT16, [0o100644] * n), (1033, INT16, [0] * n), (1034, INT32, [0] * n),
        (1035, STRINGS, [b''] * n), (1036, STRINGS, [b''] * n), (1037, INT32, [GHOST] * n),
        (1039, STRINGS, [b'root'] * n), (1040, STRINGS, [b'root'] * n),
        (1047, STRINGS, [name]), (1112, INT32, [EQUAL]), (1113, STRINGS, [version + b'-' + release]),
        (1048, INT32, [flags for _, flags, _ in requires]), (1049, STRINGS, [name for name, _, _ in requires]),
        (1050, STRINGS, [version for _, _, version in requires]),
        (1095, INT32, [1] * n), (1096, INT32, list(range(1, n + 1))), (1097, STRINGS, [b''] * n),
        (1116, INT32, [folders.index(folder + '/') for folder, _, _ in split]),
        (1117, STRINGS, [text_bytes(base) for _, _, base in split]),
        (1118, STRINGS, [text_bytes(folder) for folder in folders]),
        (1124, STRING, b'cpio'), (1125, STRING, b'gzip'), (1126, STRING, b'9'),
        (5092, STRINGS, [hashlib.sha256(payload).hexdigest().encode()]), (5093, INT32, [8]),
        (BOOK, BIN, options.book),
    ]
    if options.weight is not None:
        entries.append((BATCH_WEIGHT, INT32, [options.weight]))
    return {entry[0]: entry for entry in entries}


def usual_weight(bits):
    """The sum of the milligrams that a book states."""
    stated = doses(bits)
    if stated is None:
        sys.exit('make_package: the book has an unknown weighed kind, or ends in a record: give --weight')
    total = sum(milligrams for _, milligrams in stated)
    if total >= 1 << 32:
        sys.exit(f'make_package: the doses sum to {total}, which does not fit 32 bits: give --weight')
    return total


def make(options):
    """The package's bytes."""
    archive = cpio()
    payload = gzip.compress(archive, 9, mtime=0)
    entries = header(options, payload)
    entries.update((entry[0], entry) for entry in options.entry)
    for tag in options.without:
        entries.pop(tag, None)
    head = in_region(63, [entries[tag] for tag in sorted(entries)])
    entries = [
        (269, STRING, hashlib.sha1(head).hexdigest().encode()),
        (273, STRING, hashlib.sha256(head).hexdigest().encode()),
        (1000, INT32, [len(head + payload)]), (1004, BIN, hashlib.md5(head + payload).digest()),
        (1007, INT32, [len(archive)]),
    ]
    entries = {entry[0]: entry for entry in entries + options.signature_entry}
    signature = in_region(62, [entries[tag] for tag in sorted(entries)])
    gap = -len(signature) % 8
    if len(options.gap) > gap:
        sys.exit(f'make_package: the gap before the header has {gap} bytes: --gap gives {len(options.gap)}')
    title = text_bytes(f'{options.name}-{options.version}-{options.release}')[:65]
    return package(signature + options.gap, head, payload, front=lead(title))


def main():
    options = arguments()
    options.book = b''.join(options.book)
    if options.weight is False:
        options.weight = usual_weight(options.book)
    bits = make(options)
    file = text_bytes(options.output).decode(errors='replace')
    try:
        options.output.write_bytes(bits)
    except OSError as error:
        sys.exit(f'make_package: {file}: {error.strerror}')
    try:
        print(f'{file}: {len(bits)} bytes written, not read; target/bin/doses < {file} reads it', flush=True)
    except OSError as error:
        sys.exit(f'make_package: standard output: {error.strerror}')


main()
