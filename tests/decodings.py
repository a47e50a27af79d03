#!/usr/bin/env python3
"""decodings.py <LISTING >crates/test_decoder/stdout: what the program test_decoder prints for the parcels of a listing, which are
those of crates/test_decoder/stdin (tests/texts.py). A line of the listing has the parcels, or -, and what they decode to, by hand
or by another decoder: mnemonic, form=1|3|5, prefix=0|1, src=MODE:VALUE, dst=MODE:VALUE, length=1|3|4|5|6; or a word for what is
no instruction. A mode is its digit in Tables 1-21 and 1-23 or its name below, reg for a register; no operand is - or none:0.
Opcodes and subcodes are those that tests/frames.py has from the encodings lists of section 3.3."""
import sys

from frames import DYADIC, FLOW, MONADIC, NILADIC, SHORT, STACKED

# what include/hobbit.h answers for parcels that are no instruction
NUMBER = {'illegal': 0x103, 'trap': 0x108, 'unimplemented': 0x10C, 'REFUSED 6': 6}

# the letters of Table 1-15
LETTER = dict(wai5='W', imm5='C', uimm5='C', stk5='S', istk5='I')

# monadics with the modes of Table 1-23
FLOWS = 'CALL', 'JMP', 'JMPFN', 'JMPFY', 'JMPTN', 'JMPTY', 'LDRAA'

# Table 1-21 by code, and Table 1-23 from its code 0xC on
GENERAL = 'absB absUB absH absUH stkB stkUB stkH stkUH indB indUB indH indUH absW stkW indW imm'.split()
FLOW_MODES = 'flowabsind flowstkind flowpcrel flowabs'.split()

REGISTER = 16

NONE = '-'


def operand(text):
    """Mode, as it is written, and value."""
    mode, _, value = text.partition('=')[2].partition(':')
    return NONE if mode == 'none' else mode, int(value or '0', 16)


def count(text):
    """A field that is a number of parcels."""
    return int(text.partition('=')[2])


def general(mode):
    """The number of a mode of two operands."""
    if mode == 'reg':
        return REGISTER
    return GENERAL.index(mode) if mode in GENERAL else int(mode, 16)


def single(name, mode):
    """The number of a monadic's mode: word modes, then those of Table 1-23."""
    if mode in FLOW_MODES:
        return 4 + FLOW_MODES.index(mode)
    return general(mode) - 0xC + 4 * (name in FLOWS and mode not in GENERAL)


def parcel(name, source, destination):
    """The parcel of a one-parcel row without operand bits."""
    if source == NONE:
        return 0x0B << 10 | NILADIC[name]
    if source == 'stk8':
        return 0x02 << 10 | STACKED[name] << 8
    if destination == NONE:
        return FLOW[name] << 10
    return SHORT['%s_%s%s' % (name, LETTER[source], LETTER[destination])] << 10


def words(name, form, prefix, source, destination, length):
    """The eight words of an instruction."""
    (mode, value), (other, second) = operand(source), operand(destination)
    form, prefix, length = count(form), count(prefix), count(length)
    if form == 1:
        return [1, parcel(name, mode, other), length, 0, 0, value, 0, second]
    if other == NONE:
        return [3, MONADIC[name], length, prefix, single(name, mode), value, 0, 0]
    return [2, DYADIC[name], length, prefix, general(mode), value, general(other), second]


for line in sys.stdin:
    decoded = line.rstrip('\n').partition(' ')[2]
    numbers = [NUMBER[decoded]] if decoded in NUMBER else [0] + words(*decoded.split())
    print(' '.join('%x' % number for number in numbers))
