#!/usr/bin/env python3
"""walks.py >crates/test_walks/stdin: the walks that the program test_walks takes, as its lines (crates/test_walks/src/main.rt says what each
number is). The entries that stay through all cases: a segment at 0x1008 with a page table at 0x2000, whose entries at 0x2008
and 0x2010 are valid and not; a segment at 0x1010 that is not valid. Segment 3 (0x100C) and page 3 (0x200C) change."""

FETCH, READ, WRITE = 0, 1, 2
KERNEL, USER = 0, 1
MEMORY = 0x10000


def store(address, word):
    print('0 %X %X' % (address, word))


def show(address):
    print('2 %X' % address)


def walk(table, level, kind, address, translated=1, size=MEMORY):
    print('1 %X %X %X %X %X %X' % (kind, level, address, table, translated, size))


def each(table, address):
    """Each kind of access at each level."""
    for level in KERNEL, USER:
        for kind in FETCH, READ, WRITE:
            walk(table, level, kind, address)


def pages():
    """A page entry with each choice of its low five bits; the table base's low twelve bits do not count."""
    for level in KERNEL, USER:
        for kind in FETCH, READ, WRITE:
            for low in range(32):
                store(0x200C, 0x5A40 + low)
                walk(0x1FFF, level, kind, 0x00803ABC)


def segments():
    """A nonpaged segment with each choice of its low three bits."""
    for level in KERNEL, USER:
        for kind in FETCH, READ, WRITE:
            for low in range(8):
                store(0x100C, 0x12403FF8 + low)
                walk(0x1FFF, level, kind, 0x00C02123)


def bounds():
    """The first and the last byte of the pages below, at and above a nonpaged segment's bound."""
    for bound in 0, 1, 0x200, 0x3FF:
        store(0x100C, 0x1240000F + bound * 0x1000)
        for page in bound - 1, bound, bound + 1:
            walk(0x1000, USER, WRITE, 0x00C00000 + page % 0x400 * 0x1000)
            walk(0x1000, KERNEL, FETCH, 0x00C00FFF + page % 0x400 * 0x1000)


def ends():
    """The last word of memory as a segment entry and as a page entry; tables past the end of memory."""
    store(0xFFFC, 0x0000F007)
    walk(0xF000, USER, WRITE, 0xFFFFF765)
    walk(0xF000, USER, READ, 0xFFFFE765)
    each(0x10000, 0)
    each(0xFFFFFFFF, 0)
    for entry in 0x00010001, 0xFFFFF001:
        store(0x1014, entry)
        each(0x1000, 0x01400000)


store(0x1008, 0x00002FF7)
store(0x1010, 0x00002FFE)
store(0x2008, 0x00007007)
store(0x2010, 0x00008006)
pages()
segments()
bounds()

# a segment and a page that are not valid
each(0x1000, 0x01000000)
each(0x1000, 0x00804000)

# physical addressing
walk(0x1000, USER, WRITE, 0x00803ABC, translated=0)
walk(0xFFFFFFFF, KERNEL, FETCH, 0xFFFFFFFF, translated=0)

ends()

# a word that is a segment entry and a page entry: once it is referenced, its segment is nonpaged
store(0x1004, 0x00001007)
walk(0x1000, USER, READ, 0x00401234)
walk(0x1000, USER, READ, 0x00401234)
walk(0x1000, USER, WRITE, 0x00402234)

# tables that end within an entry
walk(0x1000, KERNEL, READ, 0x00803000, size=0x200E)
walk(0x1000, KERNEL, READ, 0x00802000, size=0x200E)
walk(0x2000, KERNEL, WRITE, 0x00C00000, size=0x200E)

# the entries that stayed: of the pages the first was referenced
for entry in 0x1008, 0x1010, 0x2008, 0x2010:
    show(entry)
