#!/usr/bin/env python3
"""texts.py >crates/test_decoder/stdin: the texts that the program test_decoder decodes, a line of parcels each, `-` for none.

Groups, in this order: every first parcel, with the parcels that it calls for; every parcel after a CPU prefix, with four more;
every subcode of one operand in every mode with offsets of both signs, without and with a prefix (RETURN and POPN take none
below 0 and ENTER none from 0 on); texts cut at each place, with a prefix or a parcel too many.

The parcels that follow differ from each other within a text, so that halves and operands cannot be taken for one another, and
are by turns small ones, those on both sides of a sign, and others. The output is the same on every run. The file
crates/test_decoder/stdout is what a listing of another decoder says, by tests/decodings.py, not what this one answers."""
from frames import ABSOLUTE, DYADIC, IMMEDIATE, MONADIC, NOP, PREFIX, STACK, five, flow, monadic, short, three

EDGES = [0, 1, 4, 0xF, 0x10, 0x7FF0, 0x7FFF, 0x8000, 0x8010, 0xFF00, 0xFFF0, 0xFFFC, 0xFFFF]
OFFSETS = [0, 0x10, 0x7FFFFFF0, 0x80000000, 0xFFFFFFF0]

# opcodes for the cuts: legal, unimplemented, 0, which three parcels have for one operand, and one that takes no immediate
LEGAL, GAP, ZERO, NO_IMMEDIATE = DYADIC['MOV'], 0x08, 0x00, DYADIC['DQM']


class Texts:
    def __init__(self):
        self.state = 1

    def number(self):
        """The next of a fixed sequence of pseudo-random words."""
        self.state = (self.state * 6364136223846793005 + 1442695040888963407) % 2 ** 64
        return self.state >> 32

    def following(self, count):
        """So many parcels, no two the same."""
        parcels = []
        while len(parcels) < count:
            n = self.number()
            parcel = EDGES[n % len(EDGES)] if n & 0x80000000 else n >> 8 & 0xFFFF
            if parcel not in parcels:
                parcels.append(parcel)
        return parcels

    def firsts(self):
        for first in range(0x10000):
            show([first] + self.following((0, 0, 2, 4)[first >> 14]))

    def prefixed(self):
        for second in range(0x10000):
            show([PREFIX, second] + self.following(4))


def show(parcels):
    print(''.join('%04X' % parcel for parcel in parcels) or '-')


def monadics():
    for before in [], [PREFIX]:
        for subcode in range(16):
            for mode in range(16):
                for offset in OFFSETS:
                    show(before + monadic(subcode, mode, offset))


def cuts():
    wholes = [form(opcode, IMMEDIATE, 0x1234, mode, 0x5678) for form in (three, five)
              for opcode, mode in ((LEGAL, STACK), (GAP, STACK), (NO_IMMEDIATE, IMMEDIATE))]
    wholes += [five(ZERO, IMMEDIATE, 0x1234, STACK, 0x5678)]
    wholes += [monadic(MONADIC['CALL'], mode, 0x12345678) for mode in (ABSOLUTE, 0)]
    show([])
    for before in [], [PREFIX]:
        for whole in wholes:
            for count in range(1, len(whole) + 1):
                show(before + whole[:count])
    # a prefix before a prefix, before one parcel
    for after in [], [PREFIX], [NOP], flow('KCALL', 0), [PREFIX] + wholes[0]:
        show([PREFIX] + after)
    # parcels left over
    for whole in [NOP], short('ADD_CS', 5, 0), wholes[0], [PREFIX] + wholes[0], five(LEGAL, IMMEDIATE, 5, STACK, 4):
        show((whole + [0x8000, PREFIX, 0xC000, 0x0001, 0xFFFF])[:6])


texts = Texts()
texts.firsts()
texts.prefixed()
monadics()
cuts()
