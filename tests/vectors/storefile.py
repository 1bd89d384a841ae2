"""Lines for reading and writing store files."""

from model.store import write_file

from .common import line
from .stores import (FIXED, mutated, numbers, random_store, sixteens,
                     too_large, with_entry, with_word)

FILE = write_file(FIXED, 197)


def read(octets):
    """A `read` line."""
    return line("read", len(octets), list(octets))


def write(length, store):
    """A `write` line."""
    return line("write", length, numbers(store))


def raw(store):
    """The file a store would make, numbers too large and all."""
    words = b"".join(word.to_bytes(4, "big") for word in store.words)
    return FILE[:5] + words + bytes(store.rom1) + bytes(store.rom2)


def patched(octets, *changes):
    """The file with some bytes made others."""
    new = bytearray(octets)
    for at, value in changes:
        new[at] = value
    return bytes(new)


def read_lengths(_):
    """Files of every length from 0 to 256: cut short, or zeros after."""
    return [read((FILE + bytes(59))[:length]) for length in range(257)]


def read_marks(_):
    """Each byte of the mark made another; small letters, mark moved."""
    files = [patched(FILE, (at, value)) for at in range(3)
             for value in (0, 0x20, FILE[at] ^ 0x20, FILE[at] + 1, 0xFF)]
    files += [FILE[1:] + FILE[:1], FILE[-1:] + FILE[:-1], bytes(197),
              b"\xff" * 197, b"SCM" + FILE[3:]]
    return [read(octets) for octets in files]


def read_versions(_):
    """Versions other than 1, their bytes turned about too."""
    return [read(patched(FILE, (3, high), (4, low)))
            for high, low in ((0, 0), (0, 1), (0, 2), (1, 0), (1, 1), (0, 255),
                              (255, 1), (255, 255), (0, 0x81), (0x80, 1))]


def read_order(_):
    """9, 10, 11, 12: a file with several things wrong answers the first."""
    mark, version, word, entry = (2, 0x54), (4, 2), (5, 1), (196, 16)
    lines = []
    for chosen in range(16):
        changes = [change for at, change
                   in enumerate((mark, version, word, entry))
                   if chosen >> at & 1]
        octets = patched(FILE, *changes)
        lines += [read(octets), read(octets[:-1] + b"" if chosen % 2 else
                                     octets + b"\0")]
    return lines


def read_words(_):
    """The largest word there may be in each place, and one bit more."""
    stores = [with_word(FIXED, state, word) for state in range(16)
              for word in ((1 << 18) - 1, 1 << 18, 1 << 24, 1 << 31)]
    return [read(raw(store)) for store in stores]


def read_entries(_):
    """Entries about 15, 16, 254 and 255 at the ends of both ROMs."""
    return [read(raw(with_entry(FIXED, rom, opcode, entry))) for rom in (1, 2)
            for opcode in (0, 1, 62, 63)
            for entry in (0, 15, 16, 128, 254, 255)]


def read_byte_order(_):
    """Words whose four bytes differ, as far as eighteen bits let them."""
    words = tuple(0x12300 + 0x1011 * state & 0x3FFFF for state in range(16))
    store = FIXED._replace(words=words, rom1=tuple(range(16)) * 4,
                           rom2=tuple(range(15, -1, -1)) * 4)
    return [read(raw(store)), write(197, store)]


def write_lengths(_):
    """Buffers of every length from 0 to 256."""
    return [write(length, FIXED) for length in range(257)]


def write_too_large(_):
    """9 before 12; refusal 12 writes nothing."""
    stores = [with_word(FIXED, state, word) for state in (0, 9, 10, 15)
              for word in ((1 << 18) - 1, 1 << 18, 0xFFFFFFFF)]
    stores += [with_entry(FIXED, rom, opcode, entry) for rom in (1, 2)
               for opcode in (0, 63) for entry in (15, 16, 254, 255)]
    return [write(length, store) for store in stores for length in (196, 197)]


def stores_that_break_rules(_):
    """ "Reading and writing accept stores that break walk rules." """
    stores = sixteens() + [with_word(FIXED, 0, 0), with_word(FIXED, 8, 0x10291)]
    return [make for store in stores
            for make in (read(raw(store)), write(197, store))]


def bad_shapes(_):
    """Lengths above 256, bytes above ff, numbers missing and too many."""
    octets = list(FILE)
    words = numbers(FIXED)
    return [line("read", 0x101, octets, [0] * 60), line("read", 0xFFFFFFFF, 0),
            line("read", 197, octets[:-1]), line("read", 197, octets, 0),
            line("read", 197, octets[:-1], 0x100), line("read", 1, 0x100),
            line("read", 0, 0), line("read", 0), line("read", 2, 0),
            line("write", 0x101, words), line("write", 0xFFFFFFFF, words),
            line("write", 197, words[:-1]), line("write", 197, words, 0),
            line("write", 197, words[:-1], 0x100),
            line("write", 0, words[:16], 0x100, words[17:]),
            line("check", words[:-1]), line("check", words, 0),
            line("check", words[:16], 0x1FF, words[17:]),
            line("check", words[:-1], 0xFFFFFFFF), line("check", words[:16]),
            line("read", 1, "FF"), line("read", 1, "0ff"), b"read", b"write",
            b"check", b"read 000000000", b"write 0", b"write 0 0"]


def random_read(rng):
    """The file of a random store, now and then with bytes turned."""
    octets = raw(random_store(rng))
    if rng.chance(1, 4):
        octets = raw(too_large(rng, FIXED))
    if rng.chance(1, 4):
        octets = patched(octets, (rng.below(8), rng.below(256)))
    if rng.chance(1, 16):
        octets = octets[:rng.below(197)]
    return read(octets)


def random_write(rng):
    """A random store into a buffer, mostly one of the right length."""
    store = mutated(rng, FIXED, 3) if rng.chance(1, 3) else random_store(rng)
    if rng.chance(1, 4):
        store = too_large(rng, store)
    return write(197 if rng.chance(7, 8) else rng.below(257), store)


EDGES = (read_lengths, read_marks, read_versions, read_order, read_words,
         read_entries, read_byte_order, write_lengths, write_too_large,
         stores_that_break_rules, bad_shapes)
