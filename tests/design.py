#!/usr/bin/env python3
"""Places of docs/DESIGN-PASS.md: what the source still has of older forms.
    tests/design.py [FOLDER]     counts by point and crate in FOLDER/crates/*/src (this repository without one)
    tests/design.py -l POINT [FOLDER]     and each place of that point
A place is a line that a point's expression finds. Tables that are read against the manual are no places; the page says why
what is left stands."""
import os, re, sys

HERE = os.path.dirname(os.path.dirname(os.path.abspath(__file__)))

# point: what the line shows, as (name, expression over a whole signature or line)
POINTS = {
    '1': [
        ('answers packed into a number', r'-> u64\b'),
        ('tests of packed answers', r'\b(EXCEPTION|NOWHERE|NOT_TAKEN) <=|< (EXCEPTION|NOWHERE|NOT_TAKEN)\b'),
        ('a flag or number that says whether the value beside it is one', r'^\s+pub (answer|fault|refusal|stored|waits|more|over): '),
        ('own forms of nothing', r'^\s+(Nothing|NoCode|Unlisted|Bad|Failed|Ended),$'),
        ('numbers for kinds', r'^(pub |pub\(crate\) )?const (\w*(FAULT|DIVIDE|TRACE|ILLEGAL|VIOLATION|REGISTER|REFUSED|REFUSAL|CHECKSUM|KIND|STOP|CODE|INTERRUPT\w*|TIMER[12]|ALWAYS|AT_JUMPS|NEVER|EVENT_DUE|SPENT|SIZE|MALFORMED\w*|OFF_THE_BOARD|NOT_USER|CUT_TEXT|NO_INSTRUCTION)): (u32|u64|u8) ='),
    ],
    '3': [
        ('loops that count by hand', r'^\s*while '),
        ('counting up or down', r'^\s*(\w+) = \1 [+-] \w+;'),
    ],
    '4': [
        ('a bool for each variant', r'=> (true|false),'),
        ('casts of bools and bytes by hand', r'^\s*if \w+ \{ [01] \} else \{ [01] \}$'),
        ('numbers of bytes by hand', r'/ 256 /|\* 256 \+'),
        ('equality part by part', r'\w\[\d\] == \w\[\d\]'),
        ('one comparison for each of some values', r'^\s*(if|\}? ?else if) \w+ == \d+ \{$'),
    ],
    '5': [
        ('memory, journal, cache and registers side by side', r'journal: &mut Journal'),
        ('a regime as three parameters', r'user: bool'),
        ('a buffer, a tally and a place side by side', r'\bat: usize\b'),
        ('lengths and bounds said by a call', r'fn (bank_size|held|value_again)\('),
    ],
    '6': [
        ('numbered fields', r'^\s+pub (p0|w0): '),
        ('a length beside its buffer', r'^\s+(pub )?(length|count|place): usize,'),
    ],
    '7': [
        ('a bool or an enum that picks the step', r'\b(confined|minus|all|double|way): (bool|Way)\b'),
    ],
}

def lines(path):
    """The file's lines, each signature joined to one."""
    text = open(path).read()
    text = re.sub(r'(?m)^(\s*(?:pub(?:\(crate\))? )?(?:unsafe )?(?:extern "C" )?fn [^{;]*?)(?=\n\s*(?:requires|ensures)|\{|;)', lambda m: re.sub(r'\s*\n\s*', ' ', m.group(1)), text)
    return text.split('\n')

def found(root):
    for name in sorted(os.listdir(os.path.join(root, 'crates'))):
        for folder, _, files in sorted(os.walk(os.path.join(root, 'crates', name, 'src'))):
            for f in sorted(files):
                if f.endswith('.rt'):
                    path = os.path.join(folder, f)
                    for k, line in enumerate(lines(path)):
                        if line.lstrip().startswith('//'):
                            continue
                        for point, kinds in POINTS.items():
                            for kind, expression in kinds:
                                if re.search(expression, line):
                                    yield point, kind, name, os.path.relpath(path, root), line.strip()

SHORTEST = 24

def functions(text):
    """Names and bodies of the functions of a file."""
    for m in re.finditer(r'(?m)^\s*(?:pub(?:\(crate\))? )?(?:unsafe )?(?:extern "C" )?fn (\w+)', text):
        start = re.search(r'\n\s*\{\n|\) ?(?:-> [^{};\n]+)? \{\n', text[m.end():])
        if not start:
            continue
        k = m.end() + start.end() - 2
        while text[k] != '{':
            k -= 1
        depth, j = 0, k
        while j < len(text):
            depth += {'{': 1, '}': -1}.get(text[j], 0)
            j += 1
            if depth == 0:
                break
        yield m.group(1), text[k:j]

def twins(root):
    """Functions whose bodies are the same but for names and numbers, long enough to matter."""
    shapes = {}
    for name in sorted(os.listdir(os.path.join(root, 'crates'))):
        for folder, _, files in sorted(os.walk(os.path.join(root, 'crates', name, 'src'))):
            for f in sorted(files):
                if f.endswith('.rt'):
                    for function, body in functions(open(os.path.join(folder, f)).read()):
                        tokens = re.findall(r'\w+|[^\w\s]', re.sub(r'//.*', '', body))
                        if len(tokens) >= SHORTEST:
                            seen, shape = {}, []
                            for t in tokens:
                                if t in ('if', 'else', 'let', 'mut', 'match', 'while', 'for', 'in', 'return', 'as'):
                                    shape.append(t)
                                elif re.match(r'\w', t):
                                    shape.append('#%d' % seen.setdefault(t, len(seen)))
                                else:
                                    shape.append(t)
                            shapes.setdefault(' '.join(shape), []).append('%s::%s::%s' % (name, f[:-3], function))
    return [names for names in shapes.values() if len(names) > 1]

def main(args):
    listed = None
    if args[:1] == ['-l']:
        listed, args = args[1], args[2:]
    root = args[0] if args else HERE
    all_found = list(found(root))
    for point, kinds in POINTS.items():
        for kind, _ in kinds:
            here = [x for x in all_found if x[0] == point and x[1] == kind]
            crates = sorted(set(x[2] for x in here))
            print('%s  %4d  %s  (%s)' % (point, len(here), kind, ', '.join('%s %d' % (c, sum(x[2] == c for x in here)) for c in crates)))
            if point == listed:
                for x in here:
                    print('        %s: %s' % (x[3], x[4][:150]))
    groups = twins(root)
    print('2  %4d  groups of functions that differ in names and numbers alone, %d functions' % (len(groups), sum(len(g) for g in groups)))
    if listed == '2':
        for g in groups:
            print('        ' + ', '.join(g))
    answers = [os.path.join(d, f) for d, _, fs in os.walk(os.path.join(root, 'crates')) for f in fs if f == 'Answers.antt' and '/out/' not in d]
    print('8  %4d  files of answers, %d lines' % (len(answers), sum(len(open(p).read().split('\n')) - 1 for p in answers)))
    laws = [os.path.join(d, f) for d, _, fs in os.walk(os.path.join(root, 'crates')) for f in fs if f.endswith('Laws.antt') and '/out/' not in d]
    print('8  %4d  files of laws, %d lines' % (len(laws), sum(len(open(p).read().split('\n')) - 1 for p in laws)))

main(sys.argv[1:])
