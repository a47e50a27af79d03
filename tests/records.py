#!/usr/bin/env python3
"""records.py [IN OUT]: the programs that convert Motorola S-records to frames and back (request (j)), by name target/bin/records_in
and records_out, held to answers that are worked out from the request: cases listed here, then texts made at random, good and
damaged, which a plain converter answers. Each text is given whole, and some in pieces. Then a file of objcopy's: refused as it
stands, since its lines end with a carriage return, and with those taken off booted on the board. Prints a line for each part, and
ends with status 1 if one is not as it must be.
"""
import os, random, subprocess, sys, time

here = os.path.dirname(os.path.abspath(__file__))
top = os.path.join(here, '..')
programs = {way: os.path.join(top, 'target', 'bin', 'records_' + way) for way in ('in', 'out')}
if len(sys.argv) == 3:
    programs = dict(zip(('in', 'out'), sys.argv[1:]))
SOON = 20
TEXTS = 600
failed = []


def told(case, wrong):
    print('%-62s %s' % (case, 'as it must be' if not wrong else 'WRONG: %r' % (wrong[:3],)))
    if wrong:
        failed.append(case)


# ---- a plain converter

ADDRESS = {'0': 2, '1': 2, '2': 3, '3': 4, '5': 2, '7': 4, '8': 3, '9': 2}
DIGITS = set('0123456789ABCDEF')


def record(kind, address, data):
    """A right record; the address in as many bytes as its type has."""
    width = ADDRESS[kind]
    body = bytes([width + len(data) + 1]) + (address % 256 ** width).to_bytes(width, 'big') + bytes(data)
    return 'S' + kind + (body + bytes([255 - sum(body) % 256])).hex().upper()


def frame(address, data):
    return '02%08X' % (address % 2 ** 32) + bytes(data).hex().upper()


def from_record(line):
    """Frames, or a refusal."""
    kind, rest = line[1:2], line[2:]
    if line[:1] != 'S' or kind not in ADDRESS or len(rest) % 2 or set(rest) - DIGITS:
        return 13
    body, width = bytes.fromhex(rest), ADDRESS[kind]
    if not body or body[0] != len(body) - 1 or body[0] < width + 1 or kind in '5789' and body[0] != width + 1:
        return 13
    if (sum(body[:-1]) + body[-1]) % 256 != 255:
        return 14
    address, data = int.from_bytes(body[1:1 + width], 'big'), body[1 + width:-1]
    return [frame(address + i, data[i:i + 32]) for i in range(0, len(data), 32)] if kind in '123' else []


def from_frame(line):
    """The record, or a refusal."""
    if not 12 <= len(line) <= 74 or len(line) % 2 or set(line) - DIGITS:
        return 7
    if line[:2] == '02':
        return [record('3', int(line[2:10], 16), bytes.fromhex(line[10:]))]
    return 15 if line[:2] in ('01', '03', '04') and len(line) == 12 else 7


def converted(way, text):
    """What must be printed for a text."""
    lines = text.split('\n')
    if lines[-1] == '':
        lines.pop()
    printed = ''
    for number, line in enumerate(lines, 1):
        gave = (from_record if way == 'in' else from_frame)(line)
        if isinstance(gave, int):
            return printed + '82%02X%08X\n' % (gave, number)
        printed += ''.join(line + '\n' for line in gave)
    return printed


# ---- the programs

def run(way, text):
    return subprocess.run([programs[way]], input=text.encode('latin-1'), stdout=subprocess.PIPE, timeout=SOON).stdout.decode('latin-1')


def in_pieces(way, text, size):
    """The same, read in pieces."""
    p = subprocess.Popen([programs[way]], stdin=subprocess.PIPE, stdout=subprocess.PIPE)
    try:
        for i in range(0, len(text), size):
            p.stdin.write(text[i:i + size].encode('latin-1'))
            p.stdin.flush()
            time.sleep(0.002)
        p.stdin.close()
    except BrokenPipeError:
        pass
    p.stdin = None
    return p.communicate(timeout=SOON)[0].decode('latin-1')


# ---- the cases: a text of several lines, and what must be printed

ONE = 'S1040100AB4F'
LONG = bytes(range(1, 251))
CASES = [
    ('every type', 'in', [
        ('S00600004844521B\nS1040100AB4F\nS205123456ABB3\nS306FFFFFFFFAB52\nS5030003F9\nS70500001000EA\nS804001000EB\nS9031000EC\n',
         '0200000100AB\n0200123456AB\n02FFFFFFFFAB\n'),
        # records after an end record, and S5's number, which is not compared
        ('S9030000FC\nS5030009F3\n' + ONE + '\n', '0200000100AB\n'),
        # data records without data
        ('S1030000FC\nS2041234565F\nS30512345678E6\n', '')]),
    ('records of 255 bytes', 'in', [
        ('S3FF00001000' + LONG.hex().upper() + '61\n',
         ''.join('02%08X%s\n' % (0x1000 + i, LONG[i:i + 32].hex().upper()) for i in range(0, 250, 32))),
        ('S0FF0000' + '00' * 252 + '00\n', '')]),
    ('addresses past their width, and past 2^32', 'in', [
        ('S124FFF0' + '33' * 33 + '59\n', '020000FFF0' + '33' * 32 + '\n020001001033\n'),
        ('S326FFFFFFF0' + '22' * 33 + '8A\n', '02FFFFFFF0' + '22' * 32 + '\n020000001022\n')]),
    ('both ends of a text', 'in', [
        ('', ''), (ONE, '0200000100AB\n'), (ONE + '\n', '0200000100AB\n'), (ONE + '\n\n', '0200000100AB\n820D00000002\n'),
        ('\n', '820D00000001\n'), (ONE[:-1], '820D00000001\n'), (ONE + '\n' + ONE[:-1], '0200000100AB\n820D00000002\n')]),
    ('13, any other line', 'in', [
        (line, '820D00000001\n') for line in (
            'S4040100AB4C', 'S6040100AB4A', 'SA040100AB4F', 's1040100AB4F', 'S1040100ab4F', 'S1040100AB4f', ' ' + ONE, ONE + ' ', ONE + '\r',
            'S1050100AB4E', 'S1030100AB50', ONE + '00', ONE[:-2], 'S', 'S1', 'S100', 'S101FE', 'S10200FD', 'S3040000FB', 'S1040100AG4F',
            'S504000000FB', 'S90400000000', 'S7060000000000F9', 'S80500000000FA', '0200000100AB', 'S\x00040100AB4F', 'S1FF' + '00' * 256)]),
    ('14, a wrong checksum, of every type', 'in', [
        (line, '820E00000001\n') for line in (
            'S00600004844521C', 'S1040100AB4E', 'S205123456AB1A', 'S306FFFFFFFFAB53', 'S5030003F8', 'S70500001000EB', 'S804001000EA',
            'S9031000ED', 'S1040100AB53')]),
    ('S3 records of frames', 'out', [
        ('0200000100AB\n02FFFFFFF0' + '22' * 32 + '\n', 'S30600000100AB4D\nS325FFFFFFF0' + '22' * 32 + 'AD\n'), ('', ''),
        ('0200000100AB', 'S30600000100AB4D\n'), ('0200000100AB\n\n', 'S30600000100AB4D\n820700000002\n')]),
    ('7, no frame, before 15, another kind', 'out', [
        (line, '820700000001\n') for line in (
            '\n', '0200000100', '0200000100A', '0200000100ab', '02' + '0' * 8 + '00' * 33, '0100000001000000', '0506FFFFFFFF', '820700000001',
            '01060000010G', '0300000000', 'S1040100AB4F', '000600000100', '0200000100AB\r')]
     + [(line, '820F00000001\n') for line in ('010600000100', '030000000007', '040000000007', '01FF00000100')]),
    ('the first refusal ends the work', 'in', [
        (ONE + '\nS1040100AB4E\n' + ONE + '\nS\n', '0200000100AB\n820E00000002\n'),
        (ONE + '\nS\nS1040100AB4E\n', '0200000100AB\n820D00000002\n'), ((ONE + '\n') * 300 + 'S\n' + ONE, '0200000100AB\n' * 300 + '820D0000012D\n')]),
]
for name, way, cases in CASES:
    told(name, [(text, got, wanted) for text, wanted in cases for got in (run(way, text),) if got != wanted])
    told('  and by the plain converter', [text for text, wanted in cases if converted(way, text) != wanted])

def stored(way, name):
    return open(os.path.join(top, 'crates', 'records_' + way, name), encoding='latin-1').read()


told('what the gate compares, by the plain converter',
     [way for way in programs if converted(way, stored(way, 'stdin')) != stored(way, 'stdout')])

# ---- texts made at random

ADDRESSES = (0, 0x1000, 0xFFF0, 0xFFFFF0, 0xFFFFFFF0, 0xFFFFFFFF)


def some_address(r):
    return r.choice(ADDRESSES + (r.getrandbits(32),))


def some_line(r, way):
    if way == 'out':
        return frame(some_address(r), r.randbytes(r.randint(1, 32)))
    kind = r.choice('0112233335789')
    most = 254 - ADDRESS[kind]
    return record(kind, some_address(r), r.randbytes(0 if kind in '5789' else r.choice((0, 1, 31, 32, 33, 64, 65, most, r.randint(0, most)))))


def damaged(r, line):
    place = r.randrange(len(line))
    return r.choice((line[:place], line[:place] + r.choice('0F1Ggs \r\0') + line[place + 1:], line + r.choice(('0', '00', ' ', '\r', line)),
                     line[:place] + line[place + 1:], '', line.lower()))


def some_text(r, way):
    lines = [some_line(r, way) for _ in range(r.choice((0, 1, 2, 5, 40)))]
    if lines and r.random() < 0.5:
        place = r.randrange(len(lines))
        lines[place] = damaged(r, lines[place])
    return '\n'.join(lines) + r.choice(('\n', '\n', ''))


for way in programs:
    r = random.Random(way)
    texts = [some_text(r, way) for _ in range(TEXTS)]
    told('%d texts, %s' % (TEXTS, way), [text for text in texts if run(way, text) != converted(way, text)])
    told('some of them in pieces, %s' % way,
         [text for text in texts[:40] if in_pieces(way, text, max(1, len(text) // 7)) != converted(way, text)])
    good = ''.join(some_line(r, way) + '\n' for _ in range(20000))
    told('a text of %d bytes, %s' % (len(good), way), [] if run(way, good) == converted(way, good) else [len(good)])

r = random.Random('round trips')
frames = ''.join(some_line(r, 'out') + '\n' for _ in range(2000))
told('frames out and in again', [] if run('in', run('out', frames)) == frames else [len(frames)])

# ---- lines of any length, and an input that goes on after the refusal

told('a line of four million bytes', [way for way, number in (('in', 13), ('out', 7))
                                     if run(way, '0' * 4_000_000 + '\n' + ONE + '\n') != '82%02X00000001\n' % number])
p = subprocess.Popen([programs['in']], stdin=subprocess.PIPE, stdout=subprocess.PIPE)
p.stdin.write(b'no record\n')
p.stdin.flush()
told('the work ends before its input does', [] if (p.wait(SOON), p.stdout.read()) == (0, b'820D00000001\n') else [p.returncode])

# ---- a file of objcopy's, whose lines end with a carriage return and a newline

boot = open(os.path.join(top, 'examples', 'boot.s19'), 'rb').read().decode()
told('a file of objcopy as it stands', [] if '\r\n' in boot and run('in', boot) == '820D00000001\n' else [run('in', boot)])
start = open(os.path.join(top, 'examples', 'boot.in')).read()
board = subprocess.run([os.path.join(top, 'target', 'bin', 'board')], input=(run('in', boot.replace('\r', '')) + start).encode(),
                       stdout=subprocess.PIPE, timeout=SOON).stdout.decode()
told('the board booted from it', [] if board == open(os.path.join(top, 'examples', 'boot.out')).read() else [board])

sys.exit(1 if failed else 0)
