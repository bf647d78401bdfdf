#!/usr/bin/env python3
"""Writes the packages of crates/samples/data: the bench samples and known slips. Run at the project's root."""
import hashlib
import pathlib
import struct

from rpmfile import BIN, I18N, INT16, INT32, STRING, STRINGS, lead, package, raw, structure

OUT = pathlib.Path('crates/samples/data')
SIGNATURE = structure([(1000, INT32, [1250])])
HEADER = structure([(1000, STRING, b'book'), (1030, INT16, [1, 2, 3]), (1106, INT32, [7, 8]), (1118, STRINGS, [b'/a/', b'/b/'])])
RIGHT = package(SIGNATURE, HEADER, b'payload')
H = 136


def put(at, new, old=RIGHT):
    return old[:at] + new + old[at + len(new):]


def word(at, n, old=RIGHT):
    return put(at, struct.pack('>I', n), old)


def header(record, store=bytes(8)):
    return package(SIGNATURE, raw([record], store))


def many(n):
    return package(SIGNATURE, raw([(2000 + k, BIN, 0, 1) for k in range(n)], b'\x01'))


DOCUMENT_002 = (
    lead(b'rpm-2.2.1-1')
    + raw([(1000, INT32, 0, 1), (1001, BIN, 4, 16), (1002, BIN, 20, 152)], struct.pack('>I', 0x44C4F) + bytes([0x55]) * 168)
    + bytes(4) + HEADER)

# An entry with a string for each of two locales.
TWO_LOCALES = (1016, I18N, [b'Books', b'Livres'])
HEADER_TRANSLATED = package(SIGNATURE, structure([TWO_LOCALES]))

SAMPLES = {
    'right': RIGHT,
    'document_002': DOCUMENT_002,
    'check02_limit': RIGHT + bytes(65536 - len(RIGHT)),
    'check02_one_more': RIGHT + bytes(65537 - len(RIGHT)),
    'check03_empty': b'',
    'check03_95_bytes': RIGHT[:95],
    'check04_magic': put(3, b'\xda'),
    'check04_major': put(4, b'\x04'),
    'check04_minor': put(5, b'\x01'),
    'check04_type': put(7, b'\x01'),
    'check04_name': put(10, b'x' * 66),
    'check04_system': put(77, b'\x02'),
    'check04_signature_type': put(79, b'\x06'),
    'check04_two_fields': put(79, b'\x06', put(5, b'\x01')),
    'check05_signature': RIGHT[:96 + 15],
    'check05_header': RIGHT[:H + 15],
    'check05_header_behind_end': RIGHT[:H - 4],
    'check28_gap_filled': package(SIGNATURE, HEADER, b'payload', gap=0x41),
    'check28_last_byte': put(H - 1, b'\x01'),
    'check28_two_bytes': put(H - 3, b'\x80\x00\x01'),
    'check28_cut': put(H - 3, b'\x01')[:H - 2],
    'check28_before_magic': put(H - 1, b'\x01\x00'),
    'check13_before_gap': package(structure([(1000, INT32, [1250]), (1000, BIN, b'1')]), HEADER, b'payload', gap=0x41),
    'check06_magic': put(H + 3, b'\x02'),
    'check06_reserved': put(H + 7, b'\x01'),
    'check07_none': word(H + 8, 0),
    'check07_512': many(512),
    'check07_513': many(513),
    'check08_store_long': word(H + 12, len(HEADER) - 16 - 64 + 8),
    'check08_largest': word(H + 12, 0xFFFFFFFF),
    'check09_type_0': word(H + 16 + 4, 0),
    'check09_type_5': word(H + 16 + 4, 5),
    'check09_type_10': word(H + 16 + 4, 10),
    'check10_none': word(H + 32 + 12, 0),
    'check10_two_strings': word(H + 16 + 12, 2),
    'check10_signature_translated': package(structure([(1000, INT32, [1250]), TWO_LOCALES]), HEADER, b'payload'),
    'check10_translated_none': word(H + 16 + 12, 0, HEADER_TRANSLATED),
    'header_translated': HEADER_TRANSLATED,
    'check11_int32_at_2': header((1, INT32, 2, 1)),
    'check12_int32_count_2': header((1, INT32, 4, 2)),
    'check12_product_wraps': header((1, INT32, 4, 0x40000000)),
    'check12_zero_missing': header((1, STRING, 7, 1), b'12345678'),
    'check12_bin_at_8': header((1, BIN, 8, 1)),
    'check13_tag_twice': word(H + 64, 1000),
    'store8_int32_at_4': header((1, INT32, 4, 1)),
    'store8_string_at_7': header((1, STRING, 7, 1), b'1234567\0'),
}

def accepted(book, batch=None, signature=(), header=(), drop=(), payload=b'', first=None):
    """A package that the reading accepts at editions 2 and 3: header entries by tag, with some changed, added or dropped.

    The header's tags rise, but for one that stands first.
    """
    weight = sum_of(book) if batch is None else batch
    entries = {
        100: (STRINGS, [b'C']), 1000: (STRING, b'book'), 1001: (STRING, b'1'), 1002: (STRING, b'1'),
        1004: (I18N, b'A book'), 1005: (I18N, b'A recipe book'), 1009: (INT32, [1]), 1014: (STRING, b'none'),
        1016: (I18N, b'Books'), 1021: (STRING, b'linux'), 1022: (STRING, b'noarch'),
        1028: (INT32, [1]), 1030: (INT16, [0o100644]), 1033: (INT16, [0]), 1034: (INT32, [0]), 1035: (STRINGS, [b'']),
        1036: (STRINGS, [b'']), 1037: (INT32, [0]), 1039: (STRINGS, [b'root']), 1040: (STRINGS, [b'root']),
        1047: (STRINGS, [b'book']), 1048: (INT32, [0]), 1049: (STRINGS, [b'kiln']), 1050: (STRINGS, [b'1.0']),
        1095: (INT32, [1]), 1096: (INT32, [1]), 1097: (STRINGS, [b'']), 1112: (INT32, [8]), 1113: (STRINGS, [b'1-1']),
        1116: (INT32, [0]), 1117: (STRINGS, [b'book']), 1118: (STRINGS, [b'/usr/share/']),
        1124: (STRING, b'cpio'), 1125: (STRING, b'gzip'), 1126: (STRING, b'9'),
        20001: (BIN, book), 20002: (INT32, [weight]),
    }
    entries.update(dict(header))
    for tag in drop:
        del entries[tag]
    tags = sorted(entries, key=lambda tag: (tag != first, tag))
    bits = structure([(tag, *entries[tag]) for tag in tags]) + payload
    signs = {1000: (INT32, [len(bits)]), 1004: (BIN, hashlib.md5(bits).digest())}
    signs.update(dict(signature))
    return package(structure([(tag, ty, value) for tag, (ty, value) in sorted(signs.items())]), bits)


def sum_of(book):
    """The milligrams of a book's weighed records."""
    total, at = 0, 0
    while at < len(book):
        if book[at] >= 128:
            total += int.from_bytes(book[at + 3:at + 7].ljust(4, b'\0'), 'big')
        at += 1 + book[at] % 16
    return total % 2**32


DOSE = bytes.fromhex('86001B000004E2')
LOT = bytes.fromhex('AA001B000004E2000112AB')


def book(text):
    return accepted(bytes.fromhex(text))


def turned(bits, part, at=-1):
    """The package with the lowest bit turned over of one byte of a part that it has once."""
    assert bits.count(part) == 1
    place = bits.index(part) + at % len(part)
    return put(place, bytes([bits[place] ^ 1]), bits)


def digest_of(bits, start):
    """The digest of what a package has from there on."""
    return hashlib.md5(bits[start:]).digest()


# A package with a payload, where its header starts, and the digest that it states.
BOOK = accepted(DOSE, payload=b'payload')
BOOK_H = 168
BOOK_DIGEST = digest_of(BOOK, BOOK_H)


# Texts in up to three locales; 30000 is a tag without a line.
TRANSLATED = {
    1004: (I18N, [b'A book', b'Ein Buch', b'Un livre']),
    1005: (I18N, [b'A recipe book', b'Ein Rezeptbuch']),
    30000: (I18N, [b'blue', b'blau', b'bleu']),
}

READINGS = {
    'book_example': book('02 0007 86 001B 000004E2'),
    'book_no_doses': book('00'),
    'book_most_milligrams': book('86 001B 004C4B40'),
    'book_two_kinds': book('86 001B 000004E2 14 00000000 98 0001 00000001 0005'),
    'book_limit': accepted(DOSE * 585 + b'\0'),
    'book_lot': accepted(LOT),
    'book_lot_0': book('AA 001B 000004E2 00000000'),
    'book_lot_most': book('AA 03E7 004C4B40 FFFFFFFF'),
    'book_three_kinds': book('AA 001B 000004E2 000112AB 86 0001 00000001 98 000E 00000320 0005 02 0007 AA 001B 00000002 00000001'),
    'book_lot_behind_98': book('98 001B 000004E2 0005 AA 001B 000004E2 000112AB'),
    'book_lots_limit': accepted(LOT * 372 + bytes.fromhex('02 0007 00')),
    'check14_signature_1000': accepted(DOSE, signature={}, header={}).replace(struct.pack('>4I', 1000, 4, 0, 1), struct.pack('>4I', 999, 4, 0, 1), 1),
    'check14_20001': accepted(DOSE, drop=[20001]),
    'check14_20002': accepted(DOSE, drop=[20002]),
    'check15_20002_type': accepted(DOSE, header={20002: (BIN, struct.pack('>I', 1250))}),
    'check16_whole_length': accepted(DOSE, signature={1000: (INT32, [2000])}),
    'check17_digest_alone': accepted(DOSE, signature={1011: (BIN, b'1')}),
    'check17_leader_missing': accepted(DOSE, header={1080: (INT32, [0]), 1082: (STRINGS, [b''])}),
    'check17_old_names': accepted(DOSE, header={1027: (STRINGS, [b'/book'])}),
    'locales_right': accepted(DOSE, header={100: (STRINGS, [b'C', b'de', b'fr']), **TRANSLATED}),
    'check17_locales': accepted(DOSE, header={1004: TRANSLATED[1004]}),
    'check17_locales_description': accepted(DOSE, header={1005: TRANSLATED[1005]}),
    'check17_locales_no_line': accepted(DOSE, header={30000: TRANSLATED[30000]}),
    'check17_locales_index_order': accepted(DOSE, header=TRANSLATED, first=30000),
    'check17_locales_one_too_many': accepted(DOSE, header={100: (STRINGS, [b'C', b'de']), **TRANSLATED}),
    'check17_digest_before_locales': accepted(DOSE, signature={1011: (BIN, b'1')}, header=TRANSLATED),
    'check17_leader_before_locales': accepted(DOSE, header={1080: (INT32, [0]), 1082: (STRINGS, [b'']), **TRANSLATED}),
    'check18_system': accepted(DOSE, header={1021: (STRING, b'linuxx')}),
    'check18_index': accepted(DOSE, header={1116: (INT32, [1])}),
    'check18_directory': accepted(DOSE, header={1118: (STRINGS, [b'/usr/share'])}),
    'book_payload': BOOK,
    'check27_dose_bit': turned(BOOK, DOSE, 2),
    'check27_payload_bit': turned(BOOK, b'payload'),
    'check27_payload_first_bit': turned(BOOK, b'payload', 0),
    'check27_digest_bit': turned(BOOK, BOOK_DIGEST),
    'check27_digest_first_bit': turned(BOOK, BOOK_DIGEST, 0),
    'check27_from_the_lead': BOOK.replace(BOOK_DIGEST, digest_of(BOOK, 0)),
    'check27_without_payload': BOOK.replace(BOOK_DIGEST, digest_of(BOOK[:-7], BOOK_H)),
    'check27_after_system': accepted(DOSE, signature={1004: (BIN, bytes(16))}, header={1021: (STRING, b'linuxx')}),
    'check27_before_4097_bytes': accepted(DOSE * 585 + b'\0\0', signature={1004: (BIN, bytes(16))}),
    'check28_book': put(BOOK_H - 2, b'\x20', BOOK),
    'check28_before_27': put(BOOK_H - 1, b'\x01', turned(BOOK, DOSE, 2)),
    'check19_4097_bytes': accepted(DOSE * 585 + b'\0\0'),
    'check20_kind_96': book('96'),
    'check20_kind_80': book('80'),
    'check20_kind_ba': book('BA 001B 000004E2 000112AB'),
    'check21_lot_cut': book('AA 001B 000004E2 000112'),
    'check22_lot_oxide': book('AA 03E8 000004E2 000112AB'),
    'check22_lot_milligrams': book('AA 001B 004C4B41 000112AB'),
    'check23_lot_sum': accepted(LOT, batch=1250 + 70315),
    'check21_kind_7f': book('7F'),
    'check21_date_cut': book('14 0000'),
    'check22_oxide_0': book('86 0000 000004E2'),
    'check22_oxide_1000': book('86 03E8 000004E2'),
    'check22_milligrams': book('86 001B 004C4B41'),
    'check23_sum': accepted(DOSE, batch=1249),
}

# The smallest package that is written: name "a", one byte of bin under the tag 1.
WRITTEN = {
    'written_smallest': bytes.fromhex(
        'EDABEEDB 0300 0000 0000 61' + '00' * 65 + '0001 0005' + '00' * 16
        + '8EADE801 00000000 00000002 00000014'
        + '000003E8 00000004 00000000 00000001'
        + '000003EC 00000007 00000004 00000010'
        + '00000021'
        + 'A972E74C171A07F171C57C6914E3587C'
        + '00000000'
        + '8EADE801 00000000 00000001 00000001'
        + '00000001 00000007 00000000 00000001'
        + '07'),
}

if __name__ == '__main__':
    OUT.mkdir(parents=True, exist_ok=True)
    every = {**SAMPLES, **READINGS, **WRITTEN}
    for name, bits in every.items():
        (OUT / name).write_bytes(bits)
    print(len(every), 'samples in', OUT)
