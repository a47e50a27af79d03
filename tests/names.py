#!/usr/bin/env python3
"""Checks the names in docs/CLAIMS.md against the tree: what is cited exists, and every must-fail edit and every witness is
cited; the paths and functions that the other documents name (OTHERS); and the tables of docs/ARCHITECTURE.md against
crates.txt: every crate stands there, below those that it names; and, as docs/CLAIMS.md says, that no `pub fn` has a `requires`.
Prints what is missing and ends with status 1, else prints one line.

Of what stands in backquotes: a path exists, `crate/edit` is an edit, `crate::module::function` a function of that module,
`Record.field` and any other name a definition, theorem, field, function or type; of an expression, the names in it that are
no plain words. A name directly before a path in parentheses is defined there. What stands in double quotes after "witness" or
"witnesses" is in a comment of crates/witnesses/specs. A witness is a theorem of that folder whose statement is computed.
"""
import re
import sys
from pathlib import Path

ROOT = Path(__file__).resolve().parent.parent
CRATES = ROOT / 'crates'
WITNESSES = CRATES / 'witnesses' / 'specs'
KINDS = r'(?:pub |abbrev |unfoldable |data |record |module |infix\w* \d+ )*'


def antt_names(text):
    """Names that a file of definitions or proofs gives a type: definitions, theorems, fields, constructors."""
    names = set()
    for line in text.splitlines():
        found = re.match(r'\s*' + KINDS + r'([^\s:(){}=.]+(?: [^\s:(){}=.]+)*) *(?:\([^:]*:[^)]*\) *)*: ', line + ' ')
        if found and not line.lstrip().startswith('--'):
            names.update(found.group(1).split())
    return names


def rattle_names(text):
    """Functions, types with their variants, constants and modules of a file of code."""
    names = set(re.findall(r'\b(?:fn|struct|enum|type|const|mod) (\w+)', text))
    for body in re.findall(r'^pub enum \w+ \{(.*?)^\}', text, re.M | re.S):
        names.update(re.findall(r'^ +(\w+)', body, re.M))
    return names


def read(paths):
    return {path: path.read_text(encoding='utf-8') for path in paths}


ANTT = {path: antt_names(text) for path, text in read(CRATES.glob('*/[sp]*/**/*.antt')).items()}
RATTLE = {path: rattle_names(text) for path, text in read(CRATES.glob('*/src/**/*.rt')).items()}
HEADER = set(re.findall(r'\b(hobbit_\w+)\(', (ROOT / 'include' / 'hobbit.h').read_text(encoding='utf-8')))
LIBRARY = {'List', 'requires'}          # of the kit: names and words that the claims use
OTHERS = 'README.md', 'CONTRIBUTING.md', 'docs/ARCHITECTURE.md', 'docs/DECISIONS.md', 'bench/RESULTS.md'
FOLDERS = {'specs/', 'src/', 'proofs/', 'CRATE/must-fail'}      # of any crate
KNOWN = set().union(*ANTT.values(), *RATTLE.values()) | HEADER | LIBRARY | {path.name for path in CRATES.iterdir()}


def layers():
    """Crates that the tables of docs/ARCHITECTURE.md leave out, or have above one that they name."""
    layout = (ROOT / 'docs' / 'ARCHITECTURE.md').read_text(encoding='utf-8').split('## Layers')[1].split('\n## ')[0]
    order = [crate for row in re.findall(r'^\| ([a-z0-9_, ]+) \|', layout, re.M) for crate in row.split(', ')]
    wrong = []
    for line in (ROOT / 'crates.txt').read_text(encoding='utf-8').splitlines():
        crate, colon, named = line.partition(':')
        crate = crate.split()[0] if crate.split() else crate      # `NAME staticlib`
        if not colon or crate.startswith('#'):
            continue
        if crate not in order:
            wrong.append('%s: not in the tables of docs/ARCHITECTURE.md' % crate)
            continue
        above = order[:order.index(crate)]
        wrong += ['%s: above %s, which it names, in docs/ARCHITECTURE.md' % (crate, other)
                  for other in named.split() if other in order and other not in above]
    return wrong


def required():
    """Public functions that ask something of their callers."""
    return ['%s: %s has a `requires`' % (path.relative_to(CRATES), name)
            for path, text in read(CRATES.glob('*/src/**/*.rt')).items()
            for name, contract in re.findall(r'^pub (?:extern "C" )?fn (\w+)(.*?)^\{', text, re.M | re.S)
            if re.search(r'^ +requires ', contract, re.M)]


def located(path):
    """The files that a path of the claims stands for: from the top, in crates/, or a file name of some specs/."""
    for base in (ROOT, CRATES):
        if (base / path).exists():
            return [base / path]
    return [] if '/' in path else sorted(CRATES.glob('*/specs/' + path))


def defined_in(path):
    files = [f for p in located(path) for f in (p.glob('**/*.antt') if p.is_dir() else [p])]
    return set().union(*(ANTT.get(f, set()) | RATTLE.get(f, set()) for f in files))


def is_path(name):
    return '/' in name or re.search(r'\.(antt|rt|h|md|py)$', name)


def function_exists(name):
    crate, *modules = name.split('::')
    files = [path for path in RATTLE if path.is_relative_to(CRATES / crate / 'src')]
    for module in modules[:-1]:
        files = [path for path in files if module in path.with_suffix('').parts]
    last = modules[-1]
    return any(last in RATTLE[path] or path.stem == last for path in files)


def missing(name):
    """What of a backquoted text is nowhere in the tree."""
    if is_path(name):
        crate, _, label = name.partition('/')
        edit = CRATES / crate / 'must-fail' / (label + '.edit')
        return [] if name in FOLDERS or located(name) or edit.exists() else [name]
    if re.fullmatch(r'\w+(::\w+)+', name):
        return [] if function_exists(name) else [name]
    if re.fullmatch(r"[\w'-]+(\.[\w'-]+)?", name):
        parts = set(name.split('.'))
        return [] if name in KNOWN or any(parts <= names for names in ANTT.values()) else [name]
    words = re.findall(r"[A-Za-z][\w'-]*", name)
    return [word for word in words if re.search(r'[a-z][A-Z]|^[A-Z]|-', word) and word not in KNOWN]


def misplaced(document):
    """Paths into the tree and functions that a document names and that are not there; capitals stand for any name."""
    found = re.findall(r'`([^`\s]+)`', (ROOT / document).read_text(encoding='utf-8'))
    named = [name for name in found if re.fullmatch(r'\w+(::\w+)+|[\w.]+(/[\w.]+)+', name) and not re.search(r'\b[A-Z]+/', name)]
    return ['%s: in %s, not in the tree' % (part, document)
            for name in named if not name.startswith('target/') for part in missing(name)]


def comments(text):
    """The comments of a file, those of several lines as one."""
    said = ''
    for line in text.splitlines():
        found = re.match(r' *-- (.*)', line)
        said += (' ' + found.group(1)) if found else '\n'
    return said


def main():
    claims = (ROOT / 'docs' / 'CLAIMS.md').read_text(encoding='utf-8')
    cited = re.findall(r'`([^`]+)`', claims)
    wrong = ['%s: not in the tree' % part for name in cited for part in missing(name)]
    wrong += layers() + required() + [row for document in OTHERS for row in misplaced(document)]
    # names directly before a path
    for names, path in re.findall(r'((?:`[^`]+`(?:,? and |, )?)+) \(`([^`]+\.antt|[^`]+/specs)`', claims):
        for name in re.findall(r"`([\w'-]+)`", names):
            if name not in defined_in(path) | LIBRARY:
                wrong.append('%s: not in %s' % (name, path))
    # witnesses by their words, and every edit, file of witnesses and witness by its name
    sources = read(WITNESSES.glob('*.antt'))
    said = ' '.join(comments(text) for text in sources.values())
    for cell in re.split(r'[|\n]', claims):
        _, found, after = cell.partition('witness')
        if found:
            wrong += ['"%s": in no comment of witnesses' % q for q in re.findall(r'"([^"]+)"', after) if q not in said]
    for edit in sorted(CRATES.glob('*/must-fail/*.edit')):
        name = '%s/%s' % (edit.parts[-3], edit.stem)
        if name not in cited:
            wrong.append('%s: an edit that no claim names' % name)
        if edit.read_text(encoding='utf-8').startswith('file:'):
            wrong.append('%s: its first line does not say what it does wrongly' % name)
    for path, text in sorted(sources.items()):
        checked = re.findall(r'^pub ([\w-]+)-checked :', text, re.M)
        if checked and path.name not in cited:
            wrong.append('%s: a file of witnesses that no claim names' % path.name)
        beside = [line for line in claims.splitlines() if '`%s`' % path.name in line]
        wrong += ['%s of %s: witnesses that no claim names' % (name, path.name)
                  for name in checked if not any('`%s`' % name in line for line in beside)]
    print('\n'.join(dict.fromkeys(wrong)) or 'names: %d names of docs/CLAIMS.md are in the tree, and those of %d other documents'
          % (len(set(cited)), len(OTHERS)))
    return 1 if wrong else 0


if __name__ == '__main__':
    sys.exit(main())
