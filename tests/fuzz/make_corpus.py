#!/usr/bin/env python3
"""Writes the seeds of fuzzing, tests/fuzz/corpus and its list corpus.txt. Run from the root:

    tests/fuzz/make_corpus.py [--check]

The list has each package's answers at editions 1 to 3 with room for any doses, known from
how the package is made: number@place. With --check nothing is written, and files that
differ are named. Bytes 80 to 95 say what is asked (tests/fuzz/input.rs).
"""
import pathlib
import struct
import sys

sys.dont_write_bytecode = True
sys.path.insert(0, str(pathlib.Path(__file__).resolve().parents[2] / 'tools'))
from make_samples import BOOK, BOOK_DIGEST, accepted as right, put, turned, word  # noqa: E402
from rpmfile import BIN, CHAR, I18N, INT16, INT32, INT8, STRING, STRINGS  # noqa: E402

FOLDER = pathlib.Path('tests/fuzz/corpus')
LIST = pathlib.Path('tests/fuzz/corpus.txt')
HEAD = '# Package, answer at editions 1, 2 and 3: number@place. Written by make_corpus.py.\n'

# Records of a book.
PAGE = bytes.fromhex('02 0007')
DOSE = bytes.fromhex('86 001B 000004E2')
DATE = bytes.fromhex('14 65E0D2A0')
TOLERATED = bytes.fromhex('98 0001 00000001 0005')
LOT = bytes.fromhex('AA 0002 00000007 01020304')
LOTS = LOT + bytes.fromhex('AA 0002 00000001 FFFFFFFF AA 0002 00000002 00000000')
S, H = 96, 168


def ask(bits, edition=4, room=0x8010, fill=0, tag=20001, ty=BIN, structure=1, element=0):
    """The package with what is asked of it."""
    return put(80, struct.pack('>IHHIbbh', edition, room, fill, tag, ty, structure, element), bits)


def short(bits, **asked):
    """The package with its last zero bytes left out; they are put behind the input."""
    kept = len(bits.rstrip(b'\0')) + 8
    return ask(bits[:kept], fill=len(bits) - kept, **asked)


def field(bits, structure, tag, number, value):
    """The package with one number of a tag's index record changed."""
    start = {S: S, H: header_start(bits)}[structure]
    nindex = struct.unpack_from('>I', bits, start + 8)[0]
    for at in range(start + 16, start + 16 + 16 * nindex, 16):
        if struct.unpack_from('>I', bits, at)[0] == tag:
            return word(at + 4 * number, value, bits), at
    raise KeyError(tag)


def swapped(bits, one, other):
    """The package with the header's index records of two tags exchanged."""
    start = header_start(bits)
    nindex = struct.unpack_from('>I', bits, start + 8)[0]
    places = {struct.unpack_from('>I', bits, at)[0]: at for at in range(start + 16, start + 16 + 16 * nindex, 16)}
    first, second = (bits[places[tag]:places[tag] + 16] for tag in (one, other))
    return put(places[one], second, put(places[other], first, bits))


def header_start(bits):
    nindex, hsize = struct.unpack_from('>II', bits, S + 8)
    end = S + 16 + 16 * nindex + hsize
    return end + -end % 8


def at_record(structure, tag, number, value, check):
    """Refused at that record by all editions."""
    bits, at = field(RIGHT, structure, tag, number, value)
    return alike(bits, f'{check}@{at}')


def alike(bits, answer):
    """Every edition has the same answer."""
    return bits, answer, answer, answer


def from_2(bits, one, later):
    """Edition 1 has one answer, the later ones another."""
    return bits, one, later, later


def from_3(book, answer, batch, **changes):
    """A book with a lot at its start: unknown to editions 1 and 2."""
    return right(book, batch=batch, **changes), '20@0', '20@0', answer


def book(text, answer):
    return alike(right(bytes.fromhex(text)), answer)


def wrong_entry(answer, tag, ty, value):
    return alike(right(DOSE, header={tag: (ty, value)}), answer)


def wrong_header(answer, entries, drop=()):
    return alike(right(DOSE, header=entries, drop=drop), answer)


def with_gap(length):
    """A package whose signature has a third entry and ends so many bytes before 192."""
    return right(DOSE, signature={1002: (BIN, b'\x55' * (12 - length))})


RIGHT = right(DOSE)
TAG, TYPE, OFFSET, COUNT = range(4)
assert header_start(RIGHT) == H
assert header_start(with_gap(0)) == header_start(with_gap(7)) == 192

FILES = {
    1028: (INT32, [1, 2, 3]), 1030: (INT16, [0o100644] * 3), 1033: (INT16, [0] * 3), 1034: (INT32, [0] * 3),
    1035: (STRINGS, [b''] * 3), 1036: (STRINGS, [b''] * 3), 1037: (INT32, [0] * 3),
    1039: (STRINGS, [b'root'] * 3), 1040: (STRINGS, [b'root'] * 3), 1045: (INT32, [0] * 3),
    1095: (INT32, [1] * 3), 1096: (INT32, [1, 2, 3]), 1097: (STRINGS, [b''] * 3),
    1116: (INT32, [0, 1, 0]), 1117: (STRINGS, [b'a', b'b', b'c']), 1118: (STRINGS, [b'/', b'/srv/']),
}
OPTIONAL = {
    1023: (STRING, b'true'), 1085: (STRING, b'/bin/sh'), 1026: (STRING, b'true'), 1088: (STRING, b'/bin/sh'),
    1053: (INT32, [8, 8]), 1054: (STRINGS, [b'a', b'b']), 1055: (STRINGS, [b'1', b'2']),
    1090: (STRINGS, [b'old']), 1114: (INT32, [0]), 1115: (STRINGS, [b'']),
    1080: (INT32, [5]), 1081: (STRINGS, [b'we']), 1082: (STRINGS, [b'first']),
}
OTHER_TAGS = {
    30001: (CHAR, b'abc'), 30002: (INT8, [1, 2]), 30003: (INT16, [1, 2, 3]), 30004: (INT32, [4, 5]),
    30005: (STRING, b'one'), 30006: (I18N, b'two'), 30007: (STRINGS, [b'', b'three']),
}
LOCALES = {
    100: (STRINGS, [b'C', b'de', b'pt_BR']), 1004: (I18N, [b'A book', b'Ein Buch', b'Um livro']),
    1005: (I18N, [b'', b'']), 30006: (I18N, [b'one', b'', b'three']),
}
REQUIRED = {
    1048: (INT32, [0x0C, 0x02, 0x08, 0x0100000A, 0]), 1049: (STRINGS, [b'kiln', b'glass', b'', b'glass', b'tin']),
    1050: (STRINGS, [b'1.10', b'2.a', b'', b'18446744073709551616', b'1'])}
TWO = (I18N, [b'one', b'two'])
OLD_NAMES = {tag: entry for tag, entry in FILES.items() if tag < 1116} | {1027: (STRINGS, [b'/a', b'/srv/b', b'/c'])}
FULL = 1 << 16
NO_DIGEST = {1004: (BIN, bytes(16))}

SEEDS = {
    'accepted_all_dose': alike(RIGHT, '0@1'),
    'accepted_all_page_dose': alike(right(PAGE + DOSE), '0@1'),
    'accepted_all_no_dose': alike(right(b'\0'), '0@0'),
    'accepted_all_date': alike(right(DATE + DOSE), '0@1'),
    'accepted_all_unknown_remark': alike(right(bytes.fromhex('31 FF') + DOSE), '0@1'),
    'accepted_all_five_doses': alike(right(DOSE * 4 + bytes.fromhex('86 03E7 004C4B40')), '0@5'),
    'accepted_all_three_files': alike(right(DOSE, header=FILES), '0@1'),
    'accepted_all_old_names': alike(right(DOSE, header=OLD_NAMES, drop=[1116, 1117, 1118]), '0@1'),
    'accepted_all_requirements': alike(right(DOSE, header=REQUIRED), '0@1'),
    'accepted_all_optional_tags': alike(right(DOSE, header=OPTIONAL), '0@1'),
    'accepted_all_other_tags': alike(right(DOSE, header=OTHER_TAGS, payload=b'payload'), '0@1'),
    'accepted_all_signed': alike(right(DOSE, signature={
        62: (BIN, bytes(16)), 1002: (BIN, bytes(5)), 1005: (BIN, bytes(3)), 1007: (INT32, [0]),
        1010: (STRING, b'a'), 1011: (BIN, b'1'), 1012: (BIN, b'2')}), '0@1'),
    'accepted_all_far_entry': alike(
        short(right(DOSE, header={30001: (BIN, bytes(60000)), 30002: (INT8, [0])}), tag=30002, ty=INT8), '0@1'),
    'accepted_all_locales': alike(ask(right(DOSE, header=LOCALES), tag=1004, ty=I18N, element=2), '0@1'),
    'accepted_all_256_locales': alike(right(DOSE, header={100: (STRINGS, [b''] * 256), 1005: TWO}), '0@1'),
    'accepted_all_signature_text': alike(right(DOSE, signature={30006: (I18N, b'one')}), '0@1'),
    'accepted_all_no_gap': alike(with_gap(0), '0@1'),
    'accepted_all_gap_of_1': alike(with_gap(1), '0@1'),
    'accepted_all_gap_of_7': alike(with_gap(7), '0@1'),
    'accepted_all_long_name': alike(put(10, b'x' * 65 + b'\0', RIGHT), '0@1'),
    'accepted_edition_2_tolerance': from_2(right(TOLERATED), '20@0', '0@1'),
    'accepted_edition_2_all_kinds': from_2(right(PAGE + DOSE + DATE + TOLERATED), '20@15', '0@2'),
    'accepted_edition_3_lot': from_3(LOT, '0@1', 7),
    'accepted_edition_3_lots': from_3(LOTS + DOSE, '0@4', 1260),
    'accepted_edition_3_all_kinds': (
        right(PAGE + DOSE + DATE + TOLERATED + LOT + DOSE, batch=2508), '20@15', '20@24', '0@4'),
    'accepted_edition_3_lot_and_tolerance': from_3(LOT + TOLERATED, '0@2', 8),
    'accepted_edition_1_no_weight': from_2(right(DOSE, drop=[20002]), '0@1', '14@20002'),
    'check02_limit': alike(short(right(DOSE, payload=bytes(FULL - len(RIGHT)))), '0@1'),
    'check02_one_more': alike(ask(RIGHT, fill=FULL + 1 - len(RIGHT)), '2@0'),
    'check03_95_bytes': alike(RIGHT[:95], '3@95'),
    'check04_major': alike(put(4, b'\x04', RIGHT), '4@4'),
    'check04_name': alike(put(10, b'x' * 66, RIGHT), '4@10'),
    'check05_signature': alike(RIGHT[:S + 15], f'5@{S}'),
    'check05_header': alike(RIGHT[:H + 15], f'5@{H}'),
    'check05_end_of_signature': alike(RIGHT[:H - 4], f'5@{H}'),
    'check05_in_the_gap': alike(RIGHT[:H - 2], f'5@{H}'),
    'check06_magic': alike(put(H + 3, b'\x02', RIGHT), f'6@{H}'),
    'check06_reserved': alike(put(S + 7, b'\x01', RIGHT), f'6@{S + 4}'),
    'check07_none': alike(word(H + 8, 0, RIGHT), f'7@{H + 8}'),
    'check07_513': alike(word(H + 8, 513, RIGHT), f'7@{H + 8}'),
    'check08_one_byte': alike(RIGHT[:-1], f'8@{H + 12}'),
    'check09_type_5': at_record(H, 1022, TYPE, 5, 9),
    'check10_none': at_record(H, 1028, COUNT, 0, 10),
    'check10_two_strings': at_record(H, 1021, COUNT, 2, 10),
    'check10_no_translation': at_record(H, 1004, COUNT, 0, 10),
    'check10_signature_translations': alike(right(DOSE, header=LOCALES, signature={30006: TWO}), f'10@{S + 48}'),
    'check11_int32': at_record(S, 1000, OFFSET, 2, 11),
    'check11_int16': at_record(H, 1030, OFFSET, 1, 11),
    'check12_product_wraps': at_record(H, 1028, COUNT, 0x40000001, 12),
    'check12_strings': at_record(H, 1117, COUNT, 1000, 12),
    'check12_translations': at_record(H, 1005, COUNT, 1000, 12),
    'check13_tag_twice': at_record(H, 1022, TAG, 1021, 13),
    'check28_first_of_7': alike(put(185, b'\x01', with_gap(7)), '28@185'),
    'check28_last_of_7': alike(put(191, b'\x80', with_gap(7)), '28@191'),
    'check28_of_1': alike(put(191, b'\xff', with_gap(1)), '28@191'),
    'check28_two': alike(put(H - 3, b'\x40\x00\xc0', RIGHT), f'28@{H - 3}'),
    'check28_all': alike(put(H - 4, b'junk', RIGHT), f'28@{H - 4}'),
    'check28_cut': alike(put(H - 2, b'\x0a', RIGHT)[:H - 1], f'28@{H - 2}'),
    'check28_cut_at_header': alike(put(H - 1, b'\x0a', RIGHT)[:H + 3], f'28@{H - 1}'),
    'check28_after_tag_twice': alike(put(H - 4, b'\x01', field(RIGHT, S, 1004, TAG, 1000)[0]), f'13@{S + 32}'),
    'check28_before_magic': alike(put(H - 1, b'\x01\x8f', RIGHT), f'28@{H - 1}'),
    'check28_before_digest': alike(put(H - 4, b'\x01', turned(BOOK, b'payload')), f'28@{H - 4}'),
    'check28_before_weight': alike(put(H - 2, b'\x01', right(DOSE, drop=[20002])), f'28@{H - 2}'),
    'check14_signature': alike(field(RIGHT, S, 1004, TAG, 1003)[0], '14@1004'),
    'check14_header': wrong_header('14@1126', {}, drop=[1126]),
    'check14_requirement_flags': wrong_header('14@1048', {}, drop=[1048]),
    'check15_signature': alike(right(DOSE, signature={1004: (BIN, bytes(17))}), '15@1004'),
    'check15_header': wrong_entry('15@1004', 1004, STRING, b'A book'),
    'check15_requirement_flags': wrong_header('15@1048', REQUIRED | {1048: (INT16, [8] * 5)}),
    'check15_locales': wrong_header('15@100', {100: TWO, 1004: TWO}),
    'check15_weight': from_2(right(DOSE, header={20002: (INT32, [1250, 1250])}), '0@1', '15@20002'),
    'check16_whole_length': alike(right(DOSE, signature={1000: (INT32, [len(RIGHT)])}), '16@1000'),
    'check17_signature': alike(right(DOSE, signature={1012: (BIN, b'1')}), '17@1002'),
    'check17_script': wrong_entry('17@1086', 1024, STRING, b'true'),
    'check17_file_count': wrong_entry('17@1037', 1037, INT32, [0, 0]),
    'check17_both_names': wrong_entry('17@1027', 1027, STRINGS, [b'/a']),
    'check17_requirement_flags': wrong_header('17@1048', REQUIRED | {1048: (INT32, [8] * 4)}),
    'check17_leader': wrong_header('17@1081', {1080: (INT32, [0]), 1082: (STRINGS, [b''])}),
    'check17_locales': wrong_entry('17@1016', 1016, *TWO),
    'check17_locales_other_tag': wrong_header('17@30006', LOCALES | {30006: (I18N, [b''] * 4), 30007: (STRINGS, [b''] * 5)}),
    'check17_locales_in_index_order': alike(swapped(right(DOSE, header={1005: TWO, 30006: TWO}), 1005, 30006), '17@30006'),
    'check17_locales_256_more': wrong_entry('17@1004', 1004, I18N, [b''] * 257),
    'check17_locales_32769': alike(short(right(DOSE, header={30006: (I18N, [b''] * 32769)})), '17@30006'),
    'check17_leader_before_locales': wrong_header('17@1080', {1004: TWO, 1081: (STRINGS, [b'we'])}),
    'check17_locales_before_system': wrong_header('17@1004', {1004: TWO, 1021: (STRING, b'linuxx')}),
    'check17_weight_in_edition_1': from_2(right(DOSE, header={20002: TWO}), '17@20002', '15@20002'),
    'check18_system': wrong_entry('18@1021', 1021, STRING, b'linuxx'),
    'check18_program': wrong_entry('18@1087', 1087, STRING, b'/bin/bash'),
    'check18_index': wrong_entry('18@1116', 1116, INT32, [1]),
    'check18_folder': wrong_entry('18@1118', 1118, STRINGS, [b'/usr/share']),
    'check27_dose': alike(turned(BOOK, DOSE, 2), '27@1004'),
    'check27_payload': alike(turned(BOOK, b'payload'), '27@1004'),
    'check27_digest': alike(turned(BOOK, BOOK_DIGEST), '27@1004'),
    'check27_after_system': alike(right(DOSE, header={1021: (STRING, b'linuxx')}, signature=NO_DIGEST), '18@1021'),
    'check27_before_kind_96': alike(right(bytes([0x96]), signature=NO_DIGEST), '27@1004'),
    'check27_no_weight': from_2(right(DOSE, drop=[20002], signature=NO_DIGEST), '27@1004', '14@20002'),
    'check19_4097_bytes': alike(short(right(DOSE + bytes(4090), batch=0)), '19@20001'),
    'check20_kind_96': book('96', '20@0'),
    'check20_kind_BA': book('BA 0002 00000007 01020304', '20@0'),
    'check14_weight_and_lot': (right(LOT, batch=7, drop=[20002]), '20@0', '14@20002', '14@20002'),
    'check21_page': book('86 001B 000004E2 02 00', '21@7'),
    'check21_lot': from_3(LOT[:-1], '21@0', 0),
    'check22_lot': from_3(bytes.fromhex('AA 0000 00000007 01020304'), '22@0', 7),
    'check22_oxide_1000': book('02 0007 86 03E8 000004E2', '22@3'),
    'check22_milligrams': book('86 001B 004C4B41', '22@0'),
    'check23_sum': from_2(right(DOSE, batch=1249), '0@1', '23@20002'),
    'check23_lot': from_3(LOT, '23@20002', 6),
    'check24_no_room': alike(ask(right(DOSE + DOSE), room=23), '0@2'),
    'check24_two_numbers_a_dose': alike(ask(right(DOSE + DOSE), room=16), '0@2'),
    'check25_other_type': alike(ask(RIGHT, tag=1028, ty=INT16), '0@1'),
    'check25_translated': alike(ask(right(DOSE, header=LOCALES), tag=1004, ty=STRINGS), '0@1'),
    'check26_locale': alike(ask(right(DOSE, header=LOCALES), tag=1005, ty=I18N, element=2), '0@1'),
    'check26_element': alike(ask(RIGHT, tag=1028, ty=INT32, element=1), '0@1'),
}


def main():
    wanted = {FOLDER / name: ask(bits) if bits[80:96] == bytes(16) else bits
              for name, (bits, *_) in sorted(SEEDS.items())}
    lines = (f'{name:38}{one:10}{two:10}{three}\n' for name, (_, one, two, three) in sorted(SEEDS.items()))
    wanted[LIST] = (HEAD + ''.join(lines)).encode()
    if sys.argv[1:] == ['--check']:
        wrong = [str(path) for path, bits in wanted.items() if not path.exists() or path.read_bytes() != bits]
        if wrong:
            sys.exit('make_corpus: not as made: ' + ', '.join(wrong))
        return
    FOLDER.mkdir(exist_ok=True)
    for path in FOLDER.iterdir():
        path.unlink()
    for path, bits in wanted.items():
        path.write_bytes(bits)
    total = sum(len(bits) for bits in wanted.values())
    print(len(SEEDS), 'packages,', total, 'bytes in', FOLDER)


if __name__ == '__main__':
    main()
