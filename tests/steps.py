#!/usr/bin/env python3
"""Prints the first part of the input of crates/test_board: single steps of every row of the encodings lists in every
operand mode. After it come long conversations of seven families and lines of every kind.

The output is the same on every run. The file crates/test_board/stdout is what a reference model of the machine answered to
the whole, not what this board answers: a change here needs a new answer from such a model.

A case sets the registers that matter, runs PREPARE (a resident text that sets the stack pointers, copies the templates over
data, stack and interrupt stack, and fills the stack cache), stores the parcels of one instruction and runs one step of it:
the line that shows its PC and PSW. No frame shows anything else, so each case ends with DIGEST, a resident text that sums
the registers, the words of memory that an instruction of a case can write, the page entries and the stack's words as
operands see them (the cache's where it is on), and jumps through the sum: PC of the case's last line is the sum.

Groups, in this order: two operands in three and five parcels; the same after a CPU prefix, with every register; one
parcel; one operand in three parcels; unimplemented and illegal parcels; byte orders and alignment; user level with virtual
addressing, free and confined; faults of the tables; interrupts, traces and timers; the manual's numbers, where a comparison
after each case shows in F whether the destination holds what the table MANUAL says.
"""
from frames import (ABSOLUTE, DYADIC, FLOW, IMMEDIATE, INDIRECT, MONADIC, NILADIC, NOP, NUMBER, PREFIX, REGISTER, SHORT, STACK,
                    STACKED, Conversation, five, flow, monadic, niladic, short, stacked, three)

TEXT = 0x1200                   # the instruction of a case
PREPARE, DIGEST, SUM = 0x6000, 0x6200, 0x7F00
TEMPLATE = 0x5000               # data, stack and interrupt stack as each case finds them
DATA, SP, ISP = 0x2F80, 0x3000, 0x3150
SEEN = (0x2F00, 0x3180)         # what DIGEST sums of memory
VB, SEGMENTS, PAGES = 0x4000, 0x8000, 0x9000
ELSEWHERE = 0x1100              # where jumps through memory lead

CACHE, LITTLE, EXTENSION = 0x40000, 0x10000, 0x20000                     # bits of CONFIG
VIRTUAL, USER_LITTLE, USER, ON_SP = 0x10000, 0x8000, 0x400, 0x200        # bits of PSW
FLAG, CARRY, OVERFLOW = 0x10, 0x20, 0x40                                 # of PSW too

# CONFIG, PSW and kind of run
KERNEL = [(0, ON_SP, 3), (CACHE, ON_SP, 3), (CACHE | LITTLE, ON_SP, 3), (LITTLE, ON_SP, 3), (CACHE, 0, 3),
          (CACHE, VIRTUAL | ON_SP, 3)]
USERS = [(CACHE, VIRTUAL | USER | ON_SP, 4), (0, VIRTUAL | USER | USER_LITTLE | ON_SP, 3),
         (CACHE, VIRTUAL | USER | USER_LITTLE | ON_SP, 4), (CACHE | LITTLE, VIRTUAL | USER | ON_SP, 3)]

EDGES = [0, 1, 2, 3, 4, 5, 8, 16, 31, 32, 33, 0x7F, 0x80, 0xFF, 0x7FFF, 0x8000, 0xFFFF, 0x7FFFFFFC, 0x7FFFFFFF, 0x80000000,
         0x80000001, 0xFFFFFFF0, 0xFFFFFFFC, 0xFFFFFFFF, 0x12345678, 0xFEDCBA98]

# Row, mode and word of the source, destination before and after: sections 1.2, 1.8 and 3.3, in words.
MANUAL = [
    # 1.8.1, 1.8.2: C on the product of the operands as unsigned values, V as signed values
    ('MUL', ABSOLUTE, 0xFFFFFFFF, 0xFFFFFFFF, 1),
    ('MUL', ABSOLUTE, 0xFFFFFFFF, 0x80000000, 0x80000000),
    ('MUL', ABSOLUTE, 2, 0x40000000, 0x80000000),
    # 3.3, DIV: "Division of 0x80000000 by 0xFFFFFFFF sets the .. overflow bit and returns the result 0x80000000."
    ('DIV', ABSOLUTE, 0xFFFFFFFF, 0x80000000, 0x80000000),
    ('REM', ABSOLUTE, 0xFFFFFFFF, 0x80000000, 0),
    # 1.8.3: -7 by 2 and 7 by -2, truncated toward zero, the remainder with the dividend's sign; then unsigned
    ('DIV', ABSOLUTE, 2, 0xFFFFFFF9, 0xFFFFFFFD),
    ('REM', ABSOLUTE, 2, 0xFFFFFFF9, 0xFFFFFFFF),
    ('DIV', ABSOLUTE, 0xFFFFFFFE, 7, 0xFFFFFFFD),
    ('REM', ABSOLUTE, 0xFFFFFFFE, 7, 1),
    ('UDIV', ABSOLUTE, 2, 0xFFFFFFF9, 0x7FFFFFFC),
    ('UREM', ABSOLUTE, 2, 0xFFFFFFF9, 1),
    # 3.3, SHR: "The sign bit of the destination is copied .. Only the low-order 5 bits of src are used"
    ('SHR', ABSOLUTE, 33, 0x80000000, 0xC0000000),
    ('SHR', ABSOLUTE, 31, 0x80000000, 0xFFFFFFFF),
    ('SHR', ABSOLUTE, 4, 0x7FFFFFFF, 0x07FFFFFF),
    ('SHL', ABSOLUTE, 33, 0x80000001, 2),
    # 1.2: "expanded to 32-bit through sign extension (if signed) or clearing high-order bits (if unsigned)"
    ('MOV', 0x0, 0xFF010101, 0, 0xFFFFFFFF),
    ('MOV', 0x1, 0xFF010101, 0, 0xFF),
    ('MOV', 0x2, 0x7FFF0101, 0, 0x7FFF),
    ('MOV', 0x2, 0x80000101, 0, 0xFFFF8000),
    ('MOV', 0x3, 0xFFFF0101, 0, 0xFFFF),
    # 1.8.4: "If both tags are zero, the result is stored only if the operation doesn't result in an arithmetic overflow."
    ('TSUB', ABSOLUTE, 8, 4, 0xFFFFFFFC),
    ('TSUB', ABSOLUTE, 4, 0x80000000, 0x80000000),
    ('TSUB', ABSOLUTE, 1, 4, 4),
    # 3.3, CMP: GT is signed, HI unsigned
    ('CMPGT', ABSOLUTE, 1, 0xFFFFFFFF, 0xFFFFFFFF),
    ('CMPHI', ABSOLUTE, 1, 0xFFFFFFFF, 0xFFFFFFFF),
    ('CMPGT', ABSOLUTE, 0xFFFFFFFF, 1, 1),
    ('CMPHI', ABSOLUTE, 0xFFFFFFFF, 1, 1),
    ('CMPEQ', ABSOLUTE, 1, 0xFFFFFFFF, 0xFFFFFFFF),
]


class Steps(Conversation):
    def __init__(self):
        super().__init__()
        self.count = 0              # of cases, to take turns by
        self.state = 1
        self.known = {}             # registers that still have what a frame gave them

    def number(self):
        """The next of a fixed sequence of pseudo-random words."""
        self.state = (self.state * 6364136223846793005 + 1442695040888963407) % 2 ** 64
        return self.state >> 32

    def value(self):
        n = self.number()
        return EDGES[n % len(EDGES)] if n & 0x80000000 else self.number()

    def keep(self, name, value):
        if self.known.get(name) != value:
            self.register(name, value)
            self.known[name] = value

    def template(self):
        """New values for the operands; the last words of data and stack are addresses that indirect operands need."""
        data = [self.value() for _ in range(12)] + [ELSEWHERE, 0x2FE0, 0x3080, 4]
        stack = [self.value() for _ in range(8)]
        stack += [ELSEWHERE, 0x2FE0, DATA + 0x34, DATA + 0x38, DATA + 0x10, DATA + 0x28, DATA + 0x22, DATA + 0x31]
        self.words(TEMPLATE, data + stack + [SP, SP + 64, ELSEWHERE, ON_SP | 0x30])

    def tables(self):
        self.identity(SEGMENTS, PAGES)
        self.words(SEGMENTS + 0x200, [PAGES | 1])       # the same pages at 0x20000000
        self.words(PAGES + 4 * 0xA, [0xA006, 0xB001, 0xC003, 0xD005, 0x00020007])
        self.known['STB'] = SEGMENTS

    def residents(self):
        registers = (('PSW', ON_SP), ('SP', SP), ('ISP', ISP), ('FAULT', 0), ('TIMER1', 0), ('TIMER2', 0))
        quads = [(TEMPLATE + 16 * i, DATA + 16 * i) for i in range(4)]
        quads += [(TEMPLATE + 64 + 16 * i, SP + 16 * i) for i in range(4)] + [(TEMPLATE + 128, ISP)]
        prepare = [p for r, v in registers for p in [PREFIX] + five(DYADIC['MOV'], IMMEDIATE, v, REGISTER, NUMBER[r])]
        prepare += [p for s, d in quads for p in five(DYADIC['DQM'], ABSOLUTE, s, ABSOLUTE, d)] + stacked('CATCH', 5)
        self.text(PREPARE, prepare)
        self.prepared = len(registers) + len(quads) + 1
        self.digest()
        self.words(VB, [0x4100 + 16 * i for i in range(16)])
        for i in range(16):
            self.text(0x4100 + 16 * i, [NOP, NOP])
        self.text(ELSEWHERE, [NOP] * 8)

    def digest(self):
        """Sum = 31 * sum + word, for each; no register is used, so the loop counts in its own text."""
        text, steps = [], 0

        def add(parcels):
            nonlocal text, steps
            text += five(DYADIC['MUL'], IMMEDIATE, 31, ABSOLUTE, SUM) + parcels
            steps += 2

        text += five(DYADIC['MOV'], IMMEDIATE, 0, ABSOLUTE, SUM)
        for name in ('SHAD', 'ISP', 'SP', 'MSP', 'CONFIG', 'VB', 'STB', 'FAULT', 'TIMER1', 'TIMER2'):
            add([PREFIX] + five(DYADIC['ADD'], REGISTER, NUMBER[name], ABSOLUTE, SUM))
        for offset in list(range(0, 80, 4)) + [124, 252]:
            add(five(DYADIC['ADD'], STACK, offset, ABSOLUTE, SUM))
        for page in range(16):
            add(five(DYADIC['ADD'], ABSOLUTE, PAGES + 4 * page, ABSOLUTE, SUM))
        first, past = SEEN
        # the source field of the loop's ADD is counted up, so it has to be an aligned word
        place = DIGEST + 2 * (len(text) + 5 + 5 + 1)
        if place % 4:
            text += [NOP]
            steps += 1
            place += 2
        text += five(DYADIC['MOV'], IMMEDIATE, first, ABSOLUTE, place)
        loop = len(text)
        text += five(DYADIC['MUL'], IMMEDIATE, 31, ABSOLUTE, SUM) + five(DYADIC['ADD'], ABSOLUTE, first, ABSOLUTE, SUM)
        text += five(DYADIC['ADD'], IMMEDIATE, 4, ABSOLUTE, place) + five(DYADIC['CMPEQ'], IMMEDIATE, past, ABSOLUTE, place)
        text += flow('JMPFY', loop - len(text))
        text += monadic(MONADIC['JMP'], ABSOLUTE, SUM)
        self.text(DIGEST, text)
        self.summed = steps + 1 + 1 + 5 * ((past - first) // 4) + 1

    def case(self, parcels, regime, at=TEXT, interrupt=7, frame=None, stack=None, timers=(), more=0,
             written=None):
        """One step of the instruction, then `more` single steps, each with its line, then the digest.

        `frame` is what the interrupt stack holds, `stack` another SP and MSP, `timers` the two timers before the step,
        `written` the number of a register that the instruction can write."""
        config, psw, kind = regime
        if self.count % 32 == 0:
            self.template()
        self.count += 1
        for name, value in (('CONFIG', config), ('VB', VB), ('STB', SEGMENTS)):
            self.keep(name, value)
        self.register('PC', PREPARE)
        self.run(self.prepared)
        if frame:
            self.words(ISP, frame)
        if stack:
            for name, value in zip(('SP', 'MSP', 'SHAD'), (*stack, stack[0])):
                self.register(name, value)
        for name, value in zip(('TIMER1', 'TIMER2'), timers):
            self.register(name, value)
        if not psw & ON_SP:
            self.register('SHAD', ISP)
        self.text(at & 0xFFFF, parcels)
        self.register('PSW', psw)
        self.register('PC', at)
        self.run(1, interrupt, kind)
        for _ in range(more):
            self.run(1, interrupt, kind)
        for name in [n for n in self.known if NUMBER[n] == written]:
            del self.known[name]
            if name == 'CONFIG':
                self.keep(name, config)         # the digest counts no timers
        self.register('PSW', ON_SP)
        self.register('PC', DIGEST)
        self.run(self.summed)

    def operand(self, mode, row=None):
        """A field for the mode: in the data, on the stack, or a value; aligned."""
        k = self.number()
        if mode == IMMEDIATE:
            return k % 40 if row in ('SHL', 'SHR', 'USHR', 'SHL3', 'SHR3', 'USHR3') else self.value()
        unit = 16 if row == 'DQM' else 1 if mode in (0, 1, 4, 5, 8, 9) else 2 if mode in (2, 3, 6, 7, 10, 11) else 4
        if mode in (0, 1, 2, 3, ABSOLUTE):
            return DATA + k % 64 // unit * unit
        if mode in (4, 5, 6, 7, STACK):
            return k % 48 // unit * unit
        return 4 * (12 + (0 if row == 'DQM' else k % {1: 4, 2: 3, 4: 2}[unit]))

    def dyadics(self):
        for row, opcode in DYADIC.items():
            for form in (three, five):
                for mode in range(16):
                    for smode, dmode in ((mode, (7 * mode + opcode) % 16), ((5 * mode + opcode + 3) % 16, mode)):
                        if row == 'DQM' and mode % 4 == 0:
                            smode, dmode = 12 + smode % 4, dmode & 0xC
                        source, destination = self.operand(smode, row), self.operand(dmode, row)
                        self.case(form(opcode, smode, source, dmode, destination), KERNEL[self.count % len(KERNEL)])

    def prefixed(self):
        modes = (REGISTER, ABSOLUTE, STACK, INDIRECT, IMMEDIATE)
        for turn, (row, opcode) in enumerate(DYADIC.items()):
            form = (three, five)[turn % 2]
            for i, mode in enumerate(modes):
                for smode, dmode in ((mode, modes[(i + turn + 1) % 5]), (modes[(i + turn + 2) % 5], mode)):
                    fields = [(3, 5, 7, 9, 11, 12, 1)[self.number() % 7] if m == REGISTER else self.operand(m, row)
                              for m in (smode, dmode)]
                    self.case([PREFIX] + form(opcode, smode, fields[0], dmode, fields[1]), KERNEL[self.count % len(KERNEL)],
                              written=fields[1] if dmode == REGISTER else None)
            # a mode that the prefix rules out
            self.case([PREFIX] + form(opcode, (turn % 7), DATA, ABSOLUTE, DATA), KERNEL[self.count % len(KERNEL)])
        for number in range(16):
            for row in ('MOV', 'ADD', 'AND', 'CMPEQ'):
                for regime in (KERNEL[1], USERS[number % 4]):
                    upper = 0xFFFFFFF0 if row == 'AND' else 0
                    self.case([PREFIX] + five(DYADIC[row], REGISTER, number | upper, ABSOLUTE, DATA + 4), regime)
                    self.case([PREFIX] + five(DYADIC[row], IMMEDIATE, (SP + 16, 16, 0x30, 0x200)[number % 4], REGISTER, number),
                              regime, written=number)
            other = 1 + number % 12
            self.case([PREFIX] + three(DYADIC['MOV'], REGISTER, number, REGISTER, other), KERNEL[0], written=other)

    def shorts(self, regimes):
        fields = ((0, 1), (1, 1), (4, 2), (31, 7), (16, 5), (12, 13), (13, 12), (8, 31))
        for row in SHORT:
            for source, destination in fields:
                self.case(short(row, source, destination), regimes[self.count % len(regimes)])
        for row in FLOW:
            for distance in (2, 0x1FF, -3, -512, 0):
                config, psw, kind = regimes[self.count % len(regimes)]
                for flag in (0, FLAG):
                    self.case(flow(row, distance), (config, psw | flag, kind))
        for row in STACKED:
            for quads in (0, 1, 2, 4, 5, 6, 16, 17, 127, 128, 0xF0, 0xEF, 0xFC, 0xFE, 0xFF):
                self.case(stacked(row, quads), regimes[self.count % len(regimes)])
        for subcode in list(range(0x11)) + [0x20, 0x40, 0x1FF, 0x200, 0x3FF]:
            for flag in (0, CARRY | OVERFLOW):
                config, psw, kind = regimes[self.count % len(regimes)]
                self.case(niladic(subcode) + [NOP, NOP], (config, psw | flag, kind))
        for row in ('KRET', 'CRET'):
            for frame in ((SP, SP + 64, ELSEWHERE, 0x10630), (SP - 32, SP, ELSEWHERE + 1, ON_SP),
                          (SP + 4, SP + 256, TEXT, 0xFFFFFFFF), (SP, SP + 272, TEXT, ON_SP), (SP, SP, TEXT, 0),
                          (SP, SP + 64, TEXT, 0), (0x20000, 0x20010, TEXT, ON_SP)):
                self.case(niladic(NILADIC[row]), regimes[self.count % len(regimes)], frame=frame)

    def monadics(self, regimes, modes):
        for subcode in range(16):
            stacks = subcode in (MONADIC['ENTER'], MONADIC['CATCH'], MONADIC['RETURN'], MONADIC['POPN'])
            for mode in modes:
                choices = {ABSOLUTE: (DATA + 0x30, DATA + 0x34, DATA + 0x38, DATA + 0x32), STACK: (32, 36, 4, 2),
                           INDIRECT: (40, 44, -16, 7), IMMEDIATE: (ELSEWHERE, 0x2FE0, 0x3080, 0x1101)}.get(mode, (4,))
                if stacks and mode == STACK:
                    choices = (0, 16, 32, 256, 272, -16, -24, -64, -256, -272, 20)
                for operand in choices:
                    config, psw, kind = regimes[self.count % len(regimes)]
                    self.case(monadic(subcode, mode, operand), (config, psw | FLAG * (self.count // 3 % 2), kind))
            for mode in (REGISTER, ABSOLUTE, IMMEDIATE):
                self.case([PREFIX] + monadic(subcode, mode, DATA + 0x30), regimes[self.count % len(regimes)])

    def unlisted(self, regimes):
        for opcode in (0x08, 0x09, 0x0C):
            for field in (0, 0x155, 0x3FF):
                self.case([opcode << 10 | field], regimes[self.count % len(regimes)])
        for opcode in sorted(set(range(64)) - set(DYADIC.values())):
            for form in (three, five):
                if form is five or opcode:
                    for prefix in ([], [PREFIX])[:1 + (regimes is KERNEL)]:
                        self.case(prefix + form(opcode, 0xC, DATA, 0xD, 4), regimes[self.count % len(regimes)])
        for parcel in (NOP, PREFIX, 0x5041, 0x2E00, 0x2000):
            self.case([PREFIX, parcel, NOP, NOP], regimes[self.count % len(regimes)])

    def bytes_in_words(self):
        """Each narrow mode at each byte of a word in both orders, aligned or not, as source and as destination."""
        for regime in (KERNEL[0], KERNEL[2], USERS[1], USERS[3]):
            for mode in list(range(12)) + [ABSOLUTE, STACK]:
                for byte in range(4):
                    if mode < 4 or mode == ABSOLUTE:
                        field = DATA + 20 + byte
                    elif mode < 8 or mode == STACK:
                        field = 8 + byte
                    else:
                        field = 4 * (12 + byte)
                    self.case(five(DYADIC['MOV'], mode, field, ABSOLUTE, DATA + 8), regime)
                    self.case(three(DYADIC['ADD'], STACK, 4, mode, field), regime)
        for row, (smode, source), (dmode, destination) in (
                ('DQM', (ABSOLUTE, DATA + 4), (0, DATA)), ('DQM', (ABSOLUTE, DATA), (0, DATA + 4)),
                ('DQM', (STACK, 8), (ABSOLUTE, DATA)), ('MOV', (INDIRECT, 2), (STACK, 0)), ('MOV', (STACK, 0), (INDIRECT, 6))):
            for regime in KERNEL[:2] + USERS[:2]:
                self.case(five(DYADIC[row], smode, source, dmode, destination), regime)

    def users(self):
        for row, opcode in DYADIC.items():
            for mode in range(16):
                smode, dmode = (mode, (3 * mode + opcode) % 16) if mode % 2 else ((3 * mode + opcode) % 16, mode)
                if row == 'DQM':
                    smode, dmode = 12 + smode % 4, dmode & 0xC
                form = (three, five)[mode // 2 % 2]
                self.case(form(opcode, smode, self.operand(smode, row), dmode, self.operand(dmode, row)),
                          USERS[self.count % len(USERS)])
                if self.count % 32 == 0:
                    self.tables()

    def faults(self):
        """Pages that are invalid, the kernel's, read only, past memory; tables past memory; text that ends with its page."""
        places = [0xA010, 0xB010, 0xC010, 0xD010, 0xE010, 0xF010, 0x10010, 0x400010, 0x20002F90, 0xFFFFFFFC]
        for place in places:
            for regime in (USERS[0], USERS[3], KERNEL[5], KERNEL[1]):
                self.tables()
                self.case(five(DYADIC['MOV'], ABSOLUTE, place, STACK, 4), regime)
                self.case(five(DYADIC['MOV'], STACK, 4, ABSOLUTE, place), regime)
                self.case(five(DYADIC['ADDI'], IMMEDIATE, 1, 0x2, place), regime)
                self.case(five(DYADIC['MOV'], 0x1, place + 3, STACK, 4), regime)
                self.case(five(DYADIC['DQM'], ABSOLUTE, place & ~15, ABSOLUTE, DATA), regime)
                self.case(monadic(MONADIC['JMP'], ABSOLUTE, place), regime)
                self.case(monadic(MONADIC['KCALL'], ABSOLUTE, place), regime)
        # stacks in and at the edge of such pages: what ENTER flushes, CATCH fills, and the store checks of both
        for stack in ((0xB020, 0xB020), (0xC020, 0xC040), (0xD020, 0xD020), (0xD000, 0xD010), (0xF020, 0xF020),
                      (0xEFF0, 0xF010), (0xCFF0, 0xCFF0), (0x9FE0, 0xA010)):
            for regime in (USERS[0], USERS[3], KERNEL[5]):
                self.tables()
                for parcels in (stacked('ENTER', -1), stacked('ENTER', -16), stacked('CATCH', 2)):
                    self.case(parcels, regime, stack=stack)
        extended = [(EXTENSION | CACHE, VIRTUAL | USER | ON_SP, 4), (EXTENSION, VIRTUAL | ON_SP, 3)]
        for regime in [USERS[0], USERS[3], KERNEL[5]] + extended:
            for at in (0x9FFC, 0x9FFE, 0xA000, 0xB000, 0xC000, 0xD000, 0x20001200, 0x20009FFE):
                if at & 0xFFFF != 0x9FFC or regime[1] & USER:
                    self.tables()
                    self.case(three(DYADIC['MOV'], ABSOLUTE, DATA + 4, ABSOLUTE, DATA + 8), regime, at=at)
        self.tables()

    def events(self):
        """Interrupt levels under masks, traces by both bits, timers, by kinds 03 and 04."""
        for level in range(8):
            for mask in (0, 1, 4, 7):
                for config, psw, kind in (KERNEL[1], USERS[0], USERS[3]):
                    self.case([NOP], (config, psw | mask << 12, kind), interrupt=level)
        texts = ([NOP], flow('JMP', 4), flow('CALL', 4), flow('JMPTY', 4), stacked('RETURN', 0), flow('KCALL', 1), [0x2000],
                 niladic(NILADIC['KRET']), three(DYADIC['DIV'], IMMEDIATE, 0, STACK, 4))
        for trace in (0x80, 0x100, 0x180):
            for parcels in texts:
                for config, psw, kind in (KERNEL[0], USERS[0], USERS[3]):
                    self.case(parcels, (config, psw | trace, kind), more=1)

        # both timers, by clocks, completed instructions or never, always or at kernel level; the overflow, then its interrupt
        for bits in (0x81000000, 0x83400000, 0xC1800000, 0xBF000000, 0x01000000, 0x80000000):
            for config, psw, kind in (KERNEL[1], USERS[0], USERS[3]):
                for mask in (1, 2):
                    self.case([NOP, NOP, NOP], (config | bits, psw | mask << 12, kind), timers=(0xFFFFFFFF, 0xFFFFFFFE), more=3)
                    self.case([0x2000], (config | bits, psw | mask << 12, kind), timers=(0xFFFFFFFF, 0xFFFFFFFF), more=1)

    def manual(self):
        """Each with F, C and V clear and set before; the second line of a case has F 1 if the destination is as it should be."""
        self.keep('CONFIG', 0)
        for row, mode, source, before, after in MANUAL:
            for flags in (0, FLAG | CARRY | OVERFLOW):
                self.words(DATA, [before, source])
                self.text(TEXT, five(DYADIC[row], mode, DATA + 4, ABSOLUTE, DATA))
                self.text(TEXT + 10, five(DYADIC['CMPEQ'], IMMEDIATE, after, ABSOLUTE, DATA))
                self.register('PSW', ON_SP | flags)
                self.register('PC', TEXT)
                self.run(1)
                self.run(1)


def main():
    s = Steps()
    s.residents()
    s.tables()
    s.dyadics()
    s.prefixed()
    s.shorts(KERNEL)
    s.monadics(KERNEL, range(16))
    s.unlisted(KERNEL)
    s.bytes_in_words()
    s.users()
    s.shorts(USERS[:3])
    s.monadics(USERS, (ABSOLUTE, STACK, INDIRECT, IMMEDIATE))
    s.unlisted(USERS[:2])
    s.faults()
    s.events()
    s.manual()
    print(s, end='')


if __name__ == '__main__':
    main()
