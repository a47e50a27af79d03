"""Frames and parcels of the board, for the scripts that write inputs (tests/steps.py, tests/texts.py, bench/inputs.py)."""

# Registers by their place in Table 1-1 (frame 01), and by their number after a CPU prefix (Table 1-24).
PLACE = dict(CONFIG=1, FAULT=2, ID=3, ISP=4, MSP=5, PC=6, PSW=7, SHAD=8, SP=9, STB=10, TIMER1=11, TIMER2=12, VB=13)
NUMBER = dict(MSP=1, ISP=2, SP=3, CONFIG=4, PSW=5, SHAD=6, VB=7, STB=8, FAULT=9, ID=10, TIMER1=11, TIMER2=12)

# Modes of Table 1-21 that the scripts name.
ABSOLUTE, STACK, INDIRECT, IMMEDIATE, REGISTER = 0xC, 0xD, 0xE, 0xF, 0x7

PREFIX = 0x2C00
NOP = 0x2C02

# Opcodes of three and five parcels with two operands, and subcodes of the monadics.
DYADIC = dict(ORI=0x01, ANDI=0x02, ADDI=0x03, MOVA=0x04, UREM=0x05, MOV=0x06, DQM=0x07, TADD=0x0C, TSUB=0x0D, CMPGT=0x1D,
              CMPHI=0x1E, CMPEQ=0x1F, SUB=0x20, OR=0x21, AND=0x22, ADD=0x23, XOR=0x24, REM=0x25, MUL=0x26, DIV=0x27, SHR=0x2C,
              USHR=0x2D, SHL=0x2E, UDIV=0x2F, SUB3=0x30, OR3=0x31, AND3=0x32, ADD3=0x33, XOR3=0x34, REM3=0x35, MUL3=0x36,
              DIV3=0x37, SHR3=0x3C, USHR3=0x3D, SHL3=0x3E)
MONADIC = dict(KCALL=0x0, CALL=0x1, RETURN=0x2, JMP=0x3, JMPFN=0x4, JMPFY=0x5, JMPTN=0x6, JMPTY=0x7, CATCH=0x8, ENTER=0x9,
               LDRAA=0xA, FLUSHPTE=0xB, FLUSHPBE=0xC, POPN=0xF)
# One parcel: opcodes with two 5-bit fields, with one 10-bit field, subcodes of the stack group, subcodes of the niladics.
SHORT = dict(MOV_WS=0x0A, ADD3_WS=0x0D, AND3_CS=0x0E, AND_SS=0x0F, CMPEQ_CS=0x10, CMPGT_SS=0x11, CMPGT_CS=0x12, CMPEQ_SS=0x13,
             ADD_CS=0x14, ADD3_CS=0x15, ADD_SS=0x16, ADD3_SS=0x17, MOV_SS=0x18, MOV_IS=0x19, MOV_SI=0x1A, MOV_II=0x1B,
             MOV_CS=0x1C, MOVA_SS=0x1D, SHL3_CS=0x1E, SHR3_CS=0x1F)
FLOW = dict(KCALL=0x00, CALL=0x01, JMP=0x03, JMPFN=0x04, JMPFY=0x05, JMPTN=0x06, JMPTY=0x07)
STACKED = dict(ENTER=0x0, CATCH=0x1, RETURN=0x2, POPN=0x3)
NILADIC = dict(KRET=0x1, NOP=0x2, FLUSHI=0x3, FLUSHP=0x4, CRET=0x5, TESTV=0x8, TESTC=0x9, CLRE=0xA)


def short(name, source, destination):
    """One parcel with two 5-bit fields, given as they stand in the parcel."""
    return [SHORT[name] << 10 | (source & 0x1F) << 5 | destination & 0x1F]


def flow(name, parcels):
    """One parcel with a 10-bit field: KCALL's immediate, or a distance in parcels."""
    return [FLOW[name] << 10 | parcels & 0x3FF]


def stacked(name, quads):
    """One parcel of the stack group, its operand in quad-words."""
    return [0x02 << 10 | STACKED[name] << 8 | quads & 0xFF]


def niladic(subcode):
    return [0x0B << 10 | subcode]


def three(opcode, smode, source, dmode, destination):
    return [0x8000 | opcode << 8 | smode << 4 | dmode, source & 0xFFFF, destination & 0xFFFF]


def five(opcode, smode, source, dmode, destination):
    return [0xC000 | opcode << 8 | smode << 4 | dmode,
            source >> 16 & 0xFFFF, source & 0xFFFF, destination >> 16 & 0xFFFF, destination & 0xFFFF]


def monadic(subcode, mode, operand):
    return [0x8000 | mode << 4 | subcode, operand >> 16 & 0xFFFF, operand & 0xFFFF]


class Conversation:
    """Lines of frames, in order."""

    def __init__(self):
        self.lines = []

    def register(self, name, value):
        self.lines.append('01%02X%08X' % (PLACE[name], value & 0xFFFFFFFF))

    def store(self, address, data):
        for i in range(0, len(data), 32):
            self.lines.append('02%08X%s' % (address + i, data[i:i + 32].hex().upper()))

    def words(self, address, values):
        self.store(address, b''.join((v & 0xFFFFFFFF).to_bytes(4, 'big') for v in values))

    def text(self, address, parcels):
        self.store(address, b''.join((p & 0xFFFF).to_bytes(2, 'big') for p in parcels))

    def run(self, budget=1, level=7, kind=3):
        self.lines.append('%02X%08X%02X' % (kind, budget, level))

    def identity(self, segments, pages, flags=0x7):
        """A segment table at `segments` whose first entry is a page table at `pages` that maps the board onto itself."""
        self.words(segments, [pages | 1])
        self.words(pages, [page << 12 | flags for page in range(16)])
        self.register('STB', segments)

    def __str__(self):
        return ''.join(line + '\n' for line in self.lines)
