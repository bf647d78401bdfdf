#!/usr/bin/env python3
"""Version texts for the library and for rpm's own comparison, rpmvercmp of librpmio.

    rpm.py vectors FILE PAIRS ANSWERS       the vectors' pairs and answers, both ways round; where
                                            librpmio is, it must say the same
    rpm.py header FILE PAIRS ANSWERS        those of a header's comments
    rpm.py random COUNT SEED PAIRS ANSWERS  so many random pairs, both ways round, and what rpm
                                            says; exit status 3 where librpmio is not there

PAIRS has two texts a line in hex, each behind a colon; ANSWERS has older, same or newer.
rpm is not asked about texts with a zero byte, which ends a text there, or with tilde or caret.
"""
import ctypes
import glob
import random
import re
import sys

WORDS = {-1: 'older', 0: 'same', 1: 'newer'}
CONTRARY = {'older': 'newer', 'same': 'same', 'newer': 'older'}
MISSING = 3
DIGITS = b'0123456789'
LETTERS = b'ABCDEFGHIJKLMNOPQRSTUVWXYZabcdefghijklmnopqrstuvwxyz'
# No zero byte, tilde or caret, and no letter or digit.
SEPARATORS = bytes(set(range(1, 256)) - set(DIGITS) - set(LETTERS) - set(b'~^'))


def rpmvercmp():
    """rpm's comparison, or None."""
    folders = ['/usr/lib*', '/usr/lib/*-linux-*', '/lib*', '/usr/local/lib*']
    for name in ['librpmio.so.*', 'librpm.so.*']:
        for path in sorted(path for folder in folders for path in glob.glob(f'{folder}/{name}')):
            try:
                found = ctypes.CDLL(path).rpmvercmp
            except (OSError, AttributeError):
                continue
            found.argtypes = [ctypes.c_char_p, ctypes.c_char_p]
            found.restype = ctypes.c_int
            return lambda left, right: WORDS[found(left, right)]
    return None


def write(pairs, pairs_file, answers_file):
    """Pairs with their answers, both ways round."""
    with open(pairs_file, 'w') as texts, open(answers_file, 'w') as answers:
        for left, right, answer in pairs:
            for one, other, word in [(left, right, answer), (right, left, CONTRARY[answer])]:
                texts.write(f':{one.hex()} :{other.hex()}\n')
                answers.write(f'{word}\n')


def unquoted(text):
    part = re.compile(rb'\\x([0-9A-Fa-f]{2})')
    return part.sub(lambda found: bytes([int(found[1], 16)]), text.encode())


def stated(lines, form):
    """The pairs that lines of this form state."""
    found = filter(None, (re.match(form, line) for line in lines))
    return [(unquoted(one[1]), unquoted(one[2]), one[3]) for one in found]


def held_to_rpm(pairs):
    """How many pairs rpm was asked about; all must be as it says."""
    compare, count = rpmvercmp(), 0
    for left, right, answer in pairs if compare else []:
        if set(left + right) & set(b'\0~^'):
            continue
        said = compare(left, right)
        if said != answer or compare(right, left) != CONTRARY[answer]:
            sys.exit(f'versions: {left} against {right}: {answer}, rpm says {said}')
        count += 1
    return count


# ---- Random pairs ----

def number(chance):
    digits = chance.choice([1, 1, 1, 1, 2, 2, 3, 4, 8, 10, 11, 19, 20, 21, 40])
    zeros = chance.choice([0] * 8 + [1, 2, 5, 30])
    return b'0' * zeros + bytes(chance.choices(DIGITS, k=digits))


def word(chance):
    usual = [b'a', b'b', b'p', b'rc', b'RC', b'fc', b'el', b'beta', b'alpha', b'git', b'dev', b'z', b'Z']
    if chance.random() < 0.7:
        return chance.choice(usual)
    return bytes(chance.choices(LETTERS, k=chance.choice([1, 1, 2, 3, 12])))


def separator(chance):
    kind = chance.random()
    if kind < 0.6:
        return b'.'
    if kind < 0.7:
        return b''
    if kind < 0.9:
        return chance.choice([b'-', b'_', b'+', b'..', b'._'])
    return bytes(chance.choices(SEPARATORS, k=chance.choice([1, 1, 2, 3])))


def version(chance):
    runs = [number(chance) if chance.random() < 0.65 else word(chance) for _ in range(chance.randrange(7))]
    text = b''.join(run + separator(chance) for run in runs)
    return text if chance.random() < 0.2 else text.rstrip(SEPARATORS)


def near(chance, text):
    """A text that is almost the same."""
    text = bytearray(text)
    for _ in range(chance.choice([0, 1, 1, 1, 2])):
        at = chance.randrange(len(text) + 1)
        byte = chance.choice(chance.choice([DIGITS, LETTERS, SEPARATORS, b'.0']))
        kind = chance.randrange(3)
        if kind == 0:
            text.insert(at, byte)
        elif at < len(text):
            text[at:at + 1] = [byte] if kind == 1 else []
    # Separators in another spelling.
    spelled = bytearray()
    for byte in text:
        spelled += separator(chance) or b'-' if byte in SEPARATORS and chance.random() < 0.3 else bytes([byte])
    return bytes(spelled)


def pairs(count, seed, compare):
    chance = random.Random(seed)
    for _ in range(count):
        left = version(chance)
        right = near(chance, left) if chance.random() < 0.6 else version(chance)
        answer = compare(left, right)
        if compare(right, left) != CONTRARY[answer]:
            sys.exit(f'versions: rpm says {answer} of {left} and {right}, and not the contrary')
        yield left, right, answer


def main():
    kind, *words = sys.argv[1:]
    if kind == 'random':
        count, seed, *files = words
        compare = rpmvercmp()
        if compare is None:
            sys.exit(MISSING)
        write(pairs(int(count), int(seed), compare), *files)
        return
    file, *files = words
    forms = {'vectors': r'"(.*)" "(.*)" (older|same|newer)$',
             'header': r' \*   "([^"]*)" +"([^"]*)" +(older|same|newer)\b'}
    with open(file) as lines:
        told = stated(lines, forms[kind])
    print(f'{len(told)} pairs of {file}, {held_to_rpm(told)} of them held to rpm')
    write(told, *files)


main()
