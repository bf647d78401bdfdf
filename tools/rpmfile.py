"""Parts of an RPM package file as bytes: lead, header structure, whole package."""
import struct

CHAR, INT8, INT16, INT32, STRING, BIN, STRINGS, I18N = 1, 2, 3, 4, 6, 7, 8, 9
ALIGN = {INT16: 2, INT32: 4}
PACK = {CHAR: '>%dB', INT8: '>%dB', INT16: '>%dH', INT32: '>%dI'}


def lead(name=b'book-1-1'):
    return b'\xed\xab\xee\xdb\x03\x00\x00\x00\x00\x01' + name.ljust(66, b'\0') + b'\x00\x01\x00\x05' + bytes(16)


def data(ty, value):
    """The data bytes of a value, and its count."""
    if ty in PACK:
        return struct.pack(PACK[ty] % len(value), *value), len(value)
    if ty == BIN:
        return bytes(value), len(value)
    if isinstance(value, (bytes, bytearray)):
        value = [value]
    return b''.join(s + b'\0' for s in value), len(value)


def raw(records, store, nindex=None, hsize=None):
    """A header structure from index records of four numbers and a store."""
    head = struct.pack('>IIII', 0x8EADE801, 0, len(records) if nindex is None else nindex, len(store) if hsize is None else hsize)
    return head + b''.join(struct.pack('>4I', *r) for r in records) + store


def structure(entries):
    """A header structure from entries (tag, type, value), data in order, aligned."""
    records, store = [], b''
    for tag, ty, value in entries:
        store += bytes(-len(store) % ALIGN.get(ty, 1))
        bits, count = data(ty, value)
        records.append((tag, ty, len(store), count))
        store += bits
    return raw(records, store)


def package(signature, header, payload=b'', gap=0, front=None):
    """A package from two structures' bytes; the gap before the header is filled with one byte's value."""
    front = (lead() if front is None else front) + signature
    return front + bytes([gap]) * (-len(front) % 8) + header + payload


def in_region(tag, entries):
    """A header structure whose first record is a region (62 or 63) over all its entries, as rpm 4 writes it."""
    index = 16 * (len(entries) + 1)
    trailer = struct.pack('>IIiI', tag, BIN, -index, 16)
    bits = structure(entries + [(tag, BIN, trailer)])
    # The region's data stays last, its record comes first.
    return bits[:16] + bits[index:index + 16] + bits[16:index] + bits[index + 16:]


def cpio():
    """An archive without files, as cpio's new ASCII form ends every archive."""
    name = b'TRAILER!!!\0'
    numbers = [0] * 4 + [1] + [0] * 6 + [len(name), 0]
    record = b'070701' + b''.join(b'%08X' % n for n in numbers) + name
    return record + bytes(-len(record) % 4)
