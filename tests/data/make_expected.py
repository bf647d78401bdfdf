#!/usr/bin/env python3
"""Writes expected.txt: what rpm reads from the packages beside this script.

Asks librpm itself (Debian: apt-get install rpm; tried with 4.18.0), entry by
entry, with the type that stands in the index. The tests need only the file.

A line is FILE STRUCTURE TAG TYPE ELEMENT HEX: structure 0 is the signature, 1
the header; "-" as element is the whole entry; strings end with their zero byte.
"""

import ctypes
import pathlib
from ctypes import POINTER, byref, c_char_p, c_int, c_int64, c_uint32, c_void_p

STRINGS = (6, 8, 9)
SIZES = {1: 1, 2: 1, 3: 2, 4: 4, 7: 1}
LONGEST = 600  # no line for a longer entry as a whole


class TagData(ctypes.Structure):
    """rpm's struct rpmtd_s."""

    _fields_ = [
        ("tag", c_uint32),
        ("type", c_uint32),
        ("count", c_uint32),
        ("data", c_void_p),
        ("flags", c_uint32),
        ("ix", c_int),
        ("size", c_uint32),
    ]


def declare(library, name, result, *arguments):
    function = getattr(library, name)
    function.restype, function.argtypes = result, arguments
    return function


librpm = ctypes.CDLL("librpm.so.9")
librpmio = ctypes.CDLL("librpmio.so.9")
fopen = declare(librpmio, "Fopen", c_void_p, c_char_p, c_char_p)
fseek = declare(librpmio, "Fseek", c_int, c_void_p, c_int64, c_int)
ftell = declare(librpmio, "Ftell", c_int64, c_void_p)
fclose = declare(librpmio, "Fclose", c_int, c_void_p)
header_read = declare(librpm, "headerRead", c_void_p, c_void_p, c_int)
init_iterator = declare(librpm, "headerInitIterator", c_void_p, c_void_p)
header_next = declare(librpm, "headerNext", c_int, c_void_p, POINTER(TagData))


def elements(td):
    """The elements of an entry as bytes of the file."""
    if td.type in STRINGS:
        if td.type == 6 and td.count == 1:
            strings = [ctypes.string_at(td.data)]
        else:
            strings = ctypes.cast(td.data, POINTER(c_char_p))[: td.count]
        return [string + b"\0" for string in strings]
    size = SIZES[td.type]
    data = ctypes.string_at(td.data, size * td.count)
    # rpm hands numbers out in the machine's order; the file is big-endian.
    return [data[at : at + size][::-1] for at in range(0, len(data), size)]


def entries(fd):
    """The (tag, type, elements) of the structure at the file's position."""
    iterator = init_iterator(header_read(fd, 1))
    td = TagData()
    found = []
    while header_next(iterator, byref(td)):
        found.append((td.tag, td.type, elements(td)))
    return found


def structures(path):
    fd = fopen(str(path).encode(), b"r.fdio")
    fseek(fd, 96, 0)
    signature = entries(fd)
    fseek(fd, (ftell(fd) + 7) // 8 * 8, 0)
    header = entries(fd)
    fclose(fd)
    return signature, header


def lines(path):
    for number, found in enumerate(structures(path)):
        for tag, kind, parts in found:
            start = f"{path.name} {number} {tag} {kind}"
            whole = b"".join(parts)
            if len(whole) <= LONGEST:
                yield f"{start} - {whole.hex()}"
            shown = {0, len(parts) - 1} if kind == 7 else range(len(parts))
            for element in sorted(shown):
                yield f"{start} {element} {parts[element].hex()}"


def main():
    folder = pathlib.Path(__file__).resolve().parent
    with open(folder / "expected.txt", "w", encoding="ascii") as out:
        print("# FILE STRUCTURE TAG TYPE ELEMENT HEX, by make_expected.py", file=out)
        for path in sorted(folder.glob("*.rpm")):
            for line in lines(path):
                print(line, file=out)


main()
