#!/usr/bin/env python3
"""repeats.py [LINES]: what stands twice, and what nothing uses. Prints a row for each and ends with status 1 if there is one.

repeated   LINES (10) or more equal lines in two places of specs/, src/ and the law files proofs/*.antt. Imports, comments,
           parameters and thin lines (a bracket, a word of three letters) don't count. Answers and invariants are left out: they have a form
           of their own. ALLOWED names the runs that may stand, each with its reason.
uncited    a name of specs/*.antt or proofs/*.antt that stands nowhere but in its own definition: not in its file, not in a
           file that imports its module, not in tests/, not in backquotes in docs/. Imports alone don't count. Fields and
           constructors aren't looked at. READ names files that are for readers alone.
unused     an imported name that stands nowhere else in its file; `do` uses ◌>>=◌.
"""
import re
import sys
from collections import defaultdict
from pathlib import Path

ROOT = Path(__file__).resolve().parent.parent
CRATES = ROOT / 'crates'

# (file, other file): why the same lines stand in both; paths from crates/ on
ALLOWED = {
    ('exec_event_frames/src/kernel.rt', 'exec_stack/src/returns.rt'): 'KRET and CRET read PC and PSW of the same frame',
}

# files whose theorems are for readers and cited by nothing but a document that names the file
READ = {
    'word/proofs/MeaningLaws.antt': 'the arithmetic in the words of the manual: DECISIONS, "Signed numbers"',
    'word/proofs/ProductLaws.antt': 'the same of products and quotients',
}

THIN = 4        # characters
TRAITS = {'Read', 'Write', 'Print'}     # imported for their methods
TACTIC = re.compile(r'crate::(specs|proofs)::(\w+)::(\w+)')     # a law that a function's tactic uses
MODULE = re.compile(r'Rattle\.(\w+)\.(specs|proofs)\.(\w+)')
DECLARED = re.compile(r'( *)(?:(?:pub|abbrev|unfoldable|data|record|infix\w* \d+) )*([^\s:(){}=.]+(?: [^\s:(){}=.]+)*)'
                      r'(?: *[({][^:]*:[^)}]*[)}])* *: ')
IMPORT = re.compile(r' *(?:pub |ghost )*use ')
COMMENT = {'.rt': '//', '.antt': '--'}


def tokens(text):
    """Words between spaces, brackets and dots, operators among them, and in these the plain words, as in `&name`."""
    found = re.findall(r'\[\]|[^\s(){}\[\],;.⌜⌝"`]+', text)
    return found + [word for name in found for word in re.findall(r"[\w·'-]+", name) if word != name]


class File:
    """A file's lines: imports, code without comments by number, and the words of each line of code."""

    def __init__(self, name, text):
        self.name, self.path = name, Path(name)         # from crates/ on
        self.imports, self.code = [], []
        begun = None                                    # an import over several lines
        for number, line in enumerate(text.splitlines(), 1):
            line = re.sub(r'(^|\s)%s.*' % COMMENT[self.path.suffix], '', line).rstrip()
            if begun or IMPORT.match(line):
                begun = (begun or '') + (' ' if begun else '') + line.strip()
                if begun.count('{') == begun.count('}'):
                    self.imports.append((number, begun.replace(', }', '}').replace(',}', '}')))
                    begun = None
            elif line:
                self.code.append((number, line))
        self.words = {word for _, line in self.code for word in tokens(line)}

    def module(self):
        """Crate, folder and name, as imports name it."""
        parts = self.path.with_suffix('').parts
        return parts if len(parts) == 3 else None

    def cited(self):
        """Of the modules that the file imports, by module: the names that it uses, or all its words where it imports the whole."""
        found = defaultdict(set)
        for _, text in self.imports:
            module = MODULE.search(text)
            if module and '{' in text:
                found[module.groups()].update(name for name, here in imported(text) if stands(here, self.words))
            elif module:
                found[module.groups()] |= self.words
        for _, line in self.code:
            for folder, module, name in TACTIC.findall(line):
                found[self.path.parts[0], folder, module].add(name)
        return found


def tree():
    paths = [p for end in COMMENT for p in CRATES.glob('*/[sp]*/**/*' + end)]
    return [File(str(p.relative_to(CRATES)), p.read_text(encoding='utf-8')) for p in sorted(paths) if p.name != 'Lib.antt']


# ---- (a) equal runs

def runs(files, least):
    """Pairs of places with `least` or more equal lines: count, file, first line, last line, the same of the other."""
    lines, places = {}, defaultdict(list)
    for f in (f for f in files if f.path.name not in ('Answers.antt', 'Invariants.antt')):
        kept = [(' '.join(text.split()), number) for number, text in f.code]
        lines[f.name] = kept = [(text, number) for text, number in kept
                                if len(text) >= THIN and not re.match(r'(pub )?mod |\w+: [^=]*,$', text)]
        for i in range(len(kept) - least + 1):
            places[tuple(text for text, _ in kept[i:i + least])].append((f.name, i))
    seen = set()
    for at in list(places.values()):
        for (f, i), (g, j) in ((a, b) for k, a in enumerate(at) for b in at[k + 1:]):
            if (f, i, g, j) in seen or (f == g and j - i < least):
                continue
            count = 0
            while i + count < len(lines[f]) and j + count < len(lines[g]) \
                    and lines[f][i + count][0] == lines[g][j + count][0]:
                seen.add((f, i + count, g, j + count))
                count += 1
            yield count, f, lines[f][i][1], lines[f][i + count - 1][1], g, lines[g][j][1], lines[g][j + count - 1][1]


def repeated(files, least):
    rows = sorted(runs(files, least), key=lambda row: (-row[0], row[1]))
    return ['repeated: %d lines, %s:%d-%d and %s:%d-%d' % row for row in rows if (row[1], row[4]) not in ALLOWED]


# ---- (b) names that nothing cites

def definitions(f):
    """Names of a file that are its own or those of a `module` block in it, each with its lines, first and past the last.
    Names in a `where` stand deeper. The head of a block ends the definition before it, and has no names."""
    found, blocks = [], []          # blocks: indentations of those around a line
    for number, line in f.code:
        depth = len(line) - len(line.lstrip())
        while blocks and depth <= blocks[-1]:
            blocks.pop()
        if line.lstrip().startswith('module '):
            blocks.append(depth)
            found.append(([], number))
        elif depth == (blocks[-1] + 2 if blocks else 0):
            head = DECLARED.match(line + ' ')
            if head:
                found.append((head.group(2).split(), number))
    ends = [number for _, number in found[1:]] + [10 ** 9]
    return [(name, first, end) for (names, first), end in zip(found, ends) for name in names]


def stands(name, words):
    """Whether a name is among the words, an operator by its parts, and a list of witnesses (tests/names.py) by its own name."""
    operator = [part for part in name.split('◌') if part]
    return (name in words or (name.endswith('_checked') and name.removesuffix('_checked') in words)
            or ('◌' in name and all(part in words for part in operator)) or (name == '◌>>=◌' and 'do' in words))


def uncited(files):
    said = set()
    for path in (p for p in [*ROOT.glob('docs/*.md'), *ROOT.glob('*.md')] if p.name != 'PORT.md'):      # which lists what was renamed
        for quoted in re.findall(r'`([^`]+)`', path.read_text(encoding='utf-8')):
            said.update(tokens(quoted))
    for path in [*ROOT.glob('tests/*.py'), *CRATES.glob('*/must-fail/*.edit')]:
        said.update(tokens(path.read_text(encoding='utf-8')))
    cited = defaultdict(set)
    for f in files:
        for module, names in f.cited().items():
            cited[module] |= names
    rows = []
    for f in (f for f in files if f.module() and f.path.suffix == '.antt' and f.name not in READ):
        for name, first, end in definitions(f):
            own = {word for number, line in f.code if not first <= number < end for word in tokens(line)}
            if not any(stands(name, words) for words in (own, said, cited[f.module()])):
                rows.append('uncited: %s:%d %s' % (f.name, first, name))
    return rows


# ---- (c) imports that a file does not use

def imported(text):
    """The names that an import brings in, each with what the file calls it."""
    path = re.sub(r'^(pub |ghost )*use ', '', text).rstrip(';')
    listed = re.search(r'\{(.*)\}$', path)
    names = listed.group(1).split(',') if listed else [re.split(r'::|\.', path)[-1]]
    pairs = [name.strip().split(' as ') for name in names]
    return [(pair[0], pair[-1]) for pair in pairs]


def unused(files):
    rows = []
    for f in files:
        for number, text in f.imports:
            if text.startswith('pub '):
                continue
            rows += ['unused: %s:%d %s' % (f.name, number, name) for name, here in imported(text)
                     if not stands(here, f.words) and name not in TRAITS]
    return rows


def main():
    files = tree()
    rows = repeated(files, int(sys.argv[1]) if len(sys.argv) > 1 else 10) + uncited(files) + unused(files)
    print('\n'.join(rows) or 'repeats: none in %d files' % len(files))
    return 1 if rows else 0


if __name__ == '__main__':
    sys.exit(main())
